#!/usr/bin/env python3
"""A checker of submissions: whether files prove what was set, from no axioms of their own.

    examples/python/submissions.py EXERCISES FILE..

EXERCISES has a line `import NAME` for each theory of theories/ that the statements are about, and a line `NAME statement` for each exercise.
"""

import pathlib
import sys

ROOT = pathlib.Path(__file__).resolve().parents[2]
sys.path.insert(0, str(ROOT / "clients"))

from holls.api import Project, Prover, ProverError, Refused  # noqa: E402


def read(path):
    """The theories and the exercises of a file."""
    lines = [line.split(None, 1) for line in pathlib.Path(path).read_text(encoding="utf-8").splitlines() if line.strip()]
    return [rest for word, rest in lines if word == "import"], {word: rest for word, rest in lines if word != "import"}


def judge(project, imports, exercises, text):
    """What is wrong with a submission, in lines."""
    # The imports come last too: a constant that the submission made itself under a name of theirs is no longer taken for theirs.
    theory = project.text(text, "Submission").extended(*("import " + name for name in imports))
    checked = theory.check()
    wrong = ["line %d: %s" % (one.line, one.text) for one in checked.findings if one.is_error]
    wrong += [checked.failure] if checked.failure else []
    wrong += ["it rests on the axiom %s" % name for name in checked.axioms]
    return wrong or [line for name, statement in exercises.items() for line in compare(theory, name, statement)]


def compare(theory, name, statement):
    """What is wrong with one exercise: the program itself says whether the theorem of its name is its statement, with all types."""
    proof = theory.prove("EXERCISE_" + name, statement)
    if isinstance(proof, Refused):
        return ["the statement of %s can't be read behind this submission: %s" % (name, proof)]
    after = proof.state.apply("ACCEPT_TAC " + name)
    if isinstance(after, Refused):
        return ["%s isn't proved" % name if after.number == 5 else "%s is another statement" % name]
    return []


def main():
    """Writes a line for each thing that is wrong. Status 0 where nothing is."""
    imports, exercises = read(sys.argv[1])
    failed = 0
    with Prover(seconds=10, memory=2 << 30) as prover:
        project = Project(prover, str(ROOT / "theories"))
        for path in sys.argv[2:]:
            try:
                wrong = judge(project, imports, exercises, pathlib.Path(path).read_text(encoding="utf-8", errors="replace"))
            except ProverError as error:
                wrong = [str(error)]
            failed += bool(wrong)
            print("%s: %s" % (path, "; ".join(wrong) or "all %d exercises are proved" % len(exercises)))
    return 1 if failed else 0


if __name__ == "__main__":
    sys.exit(main())
