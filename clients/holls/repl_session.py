"""What a line at the prompt does: a theory that grows, the proof that is open, and its steps back."""

from __future__ import annotations

import os
import re
from dataclasses import replace
from typing import Callable, Dict, List, NamedTuple, Optional, Sequence, Tuple, Union

from holls import notation, words
from holls.api import BadQuery, Kind, Project, Proof, Prover, Refused, State, Theorem, Theory
from holls.api.shown import Read, read
from holls.api.values import misread, refused
from holls.files import File
from holls.meant import Meant
from holls.packages import expansion
from holls.projects import SUFFIX, names_of_library
from holls.protocol import Made, Refusal
from holls.prover.command import SECONDS
from holls.surface import declarations

NAME = "session"
"""The name of the theory that is written at the prompt."""
UNNAMED = "GOAL"
"""The name of a goal that was stated without one."""

_WORD = re.compile(r"\s*([A-Za-z_][A-Za-z0-9_]*!?|\S*)\s*(.*?)\s*\Z", re.S)
"""A line's first word, and the rest: HOL Light's `e(TAC)` and `b()` too."""
_NAMED = re.compile(r"[A-Za-z_][A-Za-z0-9_']*\Z")
_INNER = re.compile(r"\w+ pk_")
"""What a package makes for itself."""
_PROVE = re.compile(r"\(\s*`([^`]*)`\s*,(.*)\)\Z", re.S)
"""HOL Light's `prove (`term`, TAC)`, behind its word."""
_LET = re.compile(r"([A-Za-z_][A-Za-z0-9_']*)\s*=\s*([A-Za-z_]+)\s*(.*)\Z", re.S)
"""HOL Light's `let NAME = ..`, behind its word: the name, the next word and the rest."""


class Told(NamedTuple):
    """What is to be shown: lines of text, or the goals that are open; and where it is a refusal, of what."""

    text: str = ""
    goals: Optional[State] = None
    refused: Optional[Refused] = None


class Wrong(Exception):
    """A line that can't be carried out; the text says why."""


class Session:
    """A theory under the user's hands. `run` carries one command out; what is refused changes nothing."""

    def __init__(self, prover: Prover, projects: Sequence[Project], file: Optional[File] = None) -> None:
        self.prover, self.projects = prover, list(projects)
        project = next((one for one in self.projects if file and file in one.files.values()), None)
        self.theory = project.text(file.lines.text, file.name) if project and file else Project(prover).text("", NAME)
        self.states: List[State] = []
        self.saved = self.theory.text
        self._before: List[Tuple[Theory, List[State]]] = []
        self._own: Dict[str, Callable[[str], Told]] = {
            "g": self._goal, "e": self._step, "b": self._back, "r": self._rotate, "p": self._show, "qed": self._end, "top_thm": self._end,
            "oops": self._give_up, "search": self._search, "prove": self._prove, "import": self._import, "history": self._history,
            "save": self._save, "basis": self._basis, "undo": self._undo, "help": self._help, "let": self._let,
        }

    # The state

    @property
    def state(self) -> Optional[State]:
        """The goals that are open, where a proof is."""
        return self.states[-1] if self.states else None

    @property
    def proof(self) -> Optional[Proof]:
        """The proof that is open."""
        return self.states[0].proof if self.states else None

    @property
    def text(self) -> str:
        """The theory with the steps of the open proof."""
        return self.theory.text.rstrip() + ("\n\n" + self.state.text if self.state else "\n")

    @property
    def count(self) -> int:
        """How many commands stand, as they are written: a package is one, whatever it stands for."""
        return self.theory.file.outline.commands

    @property
    def is_saved(self) -> bool:
        """Whether what was proved has been saved."""
        return self.theory.text.strip() == self.saved.strip()

    def own_words(self) -> Tuple[str, ...]:
        """The words that a line may begin with."""
        return tuple(self._own) + tuple(word for word in (*notation.COMMANDS, *declarations.WORDS, *expansion.MAKING) if word not in self._own)

    # Lines

    def run(self, line: str) -> Told:
        """Carries a command out, without its `;;`. Raises Wrong, ProverError, and KeyboardInterrupt where it is interrupted."""
        told = self._run(line.rstrip().rstrip(";"))
        return told._replace(refused=self._helped(told.refused)) if told.refused is not None else told

    def _helped(self, refusal: Refused) -> Refused:
        """A refusal with words on the name that was meant, where one is like it."""
        if refusal.kind != Kind.COMMAND:
            return refusal
        file = self._file(refusal.command)
        meant = Meant(file).said(len(file.commands) - 1, Refusal(refusal.number, refusal.argument, refusal.sentence))
        return replace(refusal, tell=lambda: (refusal.start, refusal.end, refusal.sentence + meant)) if meant else refusal

    def _file(self, command: str) -> File:
        """The theory with the open proof and one command more, as a file has them."""
        return self.theory.project.text("%s;;" % "\n\n".join((self.text.rstrip(), command)), self.theory.name).file

    def _run(self, line: str) -> Told:
        word, rest = _WORD.match(line).groups()
        if word == "save!":
            return self._save(rest, True)
        if word in self._own:
            return self._own[word]("" if rest.replace(" ", "") == "()" else rest)
        if word in notation.COMMANDS or word in declarations.WORDS or word in expansion.MAKING:
            return self._make(line)
        near = notation.near(word, self.own_words())
        raise Wrong("`%s` begins no command%s; `help` lists them" % (word, ", perhaps %s does" % near if near else ""))

    def _need(self) -> State:
        if self.state is None:
            raise Wrong("no proof is open: begin one by g `term`")
        return self.state

    def _need_none(self) -> None:
        if self.proof:
            raise Wrong("the proof of %s is open: end it by qed, or give it up by oops" % self.proof.name)

    def _goal(self, rest: str) -> Told:
        name, quotation = (UNNAMED, rest) if rest.startswith("`") else rest.split(None, 1) if len(rest.split(None, 1)) == 2 else ("", rest)
        statement = quotation.strip()
        if not name or len(statement) < 2 or statement[0] + statement[-1] != "``":
            raise Wrong("a goal is stated by g `term`, or g NAME `term`")
        if self.state and self.state.steps:
            raise Wrong("the proof of %s is open: end it by qed, or give it up by oops" % self.proof.name)
        if name == UNNAMED:
            name = self._free_name()
        proof = self.theory.prove(name, statement[1:-1])
        if isinstance(proof, Refused):
            return Told(refused=proof)
        self.states = [proof.state]
        return Told(goals=self.state)

    def _free_name(self) -> str:
        taken = {one.name for one in self.theory.known}
        names = [UNNAMED] + ["%s%d" % (UNNAMED, at) for at in range(2, len(taken) + 3)]
        return next(name for name in names if name not in taken)

    def _step(self, rest: str) -> Told:
        state = self._need()
        after = state.apply(rest)
        return self._come_to(self._as_in_a_file(state, rest, after) if isinstance(after, Refused) else after)

    def _as_in_a_file(self, state: State, step: str, why: Refused) -> Union[State, Refused]:
        """What a refused step comes to as a file would have it: one of a package (INDUCT_ON) is carried out, and kept as it is written."""
        written = "e " + step.strip()
        file = self._file(written)
        last, hidden = file.commands[-1], len(file.commands) - len(self.theory.commands) - len(state.steps) - 2
        if last.error is not None:
            return misread(last.as_written.text, last.error)
        if last.text == read(written, self.theory.view).sent:
            return why
        if hidden:
            raise Wrong("a rule in this step stands for a theorem of its own, which only a file can have in front of the proof: prove it first, and cite it")
        after = state.apply(last.text.split(None, 1)[1])
        if isinstance(after, State):
            return State(state.proof, after.path, state.written + (written,), after.goals)
        return refused(Read(written, last.translation), Refusal(after.number, after.argument, "")) if after.kind == Kind.COMMAND else after

    def _come_to(self, after: Union[State, Refused]) -> Told:
        if isinstance(after, Refused):
            return Told(refused=after)
        self.states.append(after)
        return Told(goals=self.state)

    def _rotate(self, rest: str) -> Told:
        return self._come_to(self._need().rotate(_number(rest, 1)))

    def _back(self, rest: str) -> Told:
        self._need()
        times = _number(rest, 1)
        if len(self.states) <= times:
            raise Wrong("the proof has %d steps behind it: oops gives it up" % (len(self.states) - 1))
        del self.states[len(self.states) - times:]
        return Told(goals=self.state)

    def _show(self, _: str) -> Told:
        return Told(goals=self._need())

    def _end(self, name: str) -> Told:
        state = self._need()
        if name and not _NAMED.match(name):
            raise Wrong("a theorem's name is a letter or _, then letters, digits, _ or ': qed NAME")
        return self._made(state, name or state.proof.name)

    def _made(self, state: State, name: str) -> Told:
        """Takes the theorem of a proof that is done."""
        theorem = state.qed(name)
        if isinstance(theorem, Refused):
            return Told(refused=theorem)
        self._become(self.theory.extended(*theorem.script))
        hint = "\n  (undo, and then qed NAME, gives it another name)" if theorem.name.startswith(UNNAMED) else ""
        return Told("%s\n  %s%s" % (self._shown(theorem), _rests(theorem), hint))

    def _shown(self, theorem: Theorem) -> str:
        """A theorem in notation."""
        return "%s |- %s" % (theorem.name, self.theory.view.term(theorem.statement))

    def _become(self, theory: Theory) -> None:
        """Has another theory stand, without an open proof, to which `undo` has a way back."""
        self._before.append((self.theory, self.states))
        self.theory, self.states = theory, []

    def _undo(self, _: str) -> Told:
        if self.proof:
            raise Wrong("the proof of %s is open: b takes a step back, oops gives it up" % self.proof.name)
        if not self._before:
            raise Wrong("nothing was accepted in this session that could be taken back")
        self.theory, self.states = self._before.pop()
        count = self.count
        return Told("taken back: %d command%s" % (count, " stands" if count == 1 else "s stand"), self.state)

    def _let(self, rest: str) -> Told:
        """HOL Light's ways to name what is made; else the file's own `let`."""
        found = _LET.match(rest)
        name, word, more = found.groups() if found else ("", "", "")
        if word == "prove" and _PROVE.match(more):
            return self._prove_whole(name, *_PROVE.match(more).groups())
        if word == "top_thm":
            return self._end(name)
        if word.startswith("new_") and more.startswith("`") and word in notation.COMMANDS:
            return self._make("%s %s %s" % (word, name, more))
        return self._make("let " + rest)

    def _prove_whole(self, name: str, statement: str, step: str) -> Told:
        """States a goal, runs a step on it and makes the theorem; or changes nothing."""
        self._need_none()
        proof = self.theory.prove(name, statement)
        after = proof.state.apply(step.strip()) if isinstance(proof, Proof) else proof
        if isinstance(after, Refused):
            return Told(refused=after)
        if not after.is_proved:
            raise Wrong("%d goal%s left, and no theorem is made; the first one: %s" % (
                len(after.goals), " is" if len(after.goals) == 1 else "s are", after.shown[0].conclusion))
        return self._made(after, name)

    def _give_up(self, _: str) -> Told:
        name = self._need().proof.name
        self.states = []
        return Told("the proof of %s is given up" % name)

    def _make(self, line: str, base: Optional[Theory] = None) -> Told:
        """A command that stands outside of proofs, behind the theory or another one that has the same text."""
        self._need_none()
        longer = (base or self.theory).extended(line)
        reports = longer.reports[len(self.theory.commands):]
        refusals = [one for one in reports if isinstance(one, Refused)]
        if refusals:
            return Told(refused=refusals[0])
        self._become(longer)
        entries = [text for one in reports if isinstance(one, Made) for text in longer.view.made(one).entries]
        return Told("\n".join(text for text in entries if not _INNER.match(text)))

    def _import(self, name: str) -> Told:
        base = self.theory
        if name not in base.project.files:
            having = [one for one in self.projects if name in one.files]
            is_one = len(having) == 1 and not base.project.files
            is_of_library = not is_one and base.project.take_of_library(name)
            if not having and not is_of_library:
                raise Wrong("there is no theory %s%s" % (name, self._theories_for(name)))
            if not is_one and not is_of_library:
                raise Wrong("%s is in several projects, or in another one than what stands: name one folder by holls repl --in FOLDER" % name)
            base = having[0].text(base.text, base.name) if is_one else base
        told = self._make("import " + name, base)
        return told if told.refused is not None else Told("%d names are taken from %s" % (len(told.text.splitlines()), name))

    def _theories_for(self, name: str) -> str:
        """Words on the theories that could be meant by a name that none has."""
        own = sorted({one for project in self.projects for one in project.names})
        near = notation.near(name, (*own, *names_of_library()))
        if near:
            return "; did you mean %s?" % near
        return "; there are %s%s, and those of the library" % (", ".join(own[:SHOWN]), " .." if len(own) > SHOWN else "") if own else (
            " in the library; holls repl --in FOLDER names a folder of yours")

    # Questions

    def _search(self, pattern: str) -> Told:
        pattern = pattern[1:-1].strip() if pattern.startswith("[") and pattern.endswith("]") else pattern
        try:
            found = self.theory.theorems(pattern.strip("`") if pattern.startswith("`") else pattern or None)
        except BadQuery as error:
            raise Wrong(str(error)) from None
        return Told("\n".join(map(self._shown, found[:SHOWN])) + ("\n.. and %d more" % (len(found) - SHOWN) if len(found) > SHOWN else "")
                    if found else "nothing was found")

    def _basis(self, name: str) -> Told:
        items = self.theory.basis(name)
        return Told("no theorem %s stands here that this session or an import has made" % name if items is None else words.rests(items))

    def _history(self, _: str) -> Told:
        return Told(self.text.strip() or "nothing was accepted yet")

    def _prove(self, rest: str) -> Told:
        """Looks for steps that close the first goal, as `holls prove` does; or proves a term by a step, as HOL Light's `prove` does."""
        whole = _PROVE.match(rest)
        if whole:
            return self._prove_whole(self._free_name(), *whole.groups())
        state = self._need()
        if state.is_proved:
            raise Wrong("no goal is open: end the proof by qed")
        given = rest.split()
        after = state.find(SECONDS, (given[1:] if given[:1] == ["with"] else given) or None)
        if isinstance(after, Refused):
            return Told(after.sentence)
        self._come_to(after)
        return Told("\n".join(step + ";;" for step in after.steps[len(state.steps):]), self.state)

    # Files

    def _save(self, path: str, is_sure: bool = False) -> Told:
        if not path:
            raise Wrong("save FILE%s writes what was accepted into a file" % SUFFIX)
        path += "" if path.endswith(SUFFIX) else SUFFIX
        if os.path.exists(path) and not is_sure and _read(path).strip() not in ("", self.saved.strip()):
            raise Wrong("%s has something else in it: save! %s writes over it" % (path, path))
        try:
            with open(path, "w", encoding="utf-8") as stream:
                stream.write(self.theory.text.strip() + "\n")
        except OSError as error:
            raise Wrong("%s can't be written: %s" % (path, error.strerror or error)) from None
        self.saved = self.theory.text
        rest = "; the open proof of %s isn't in it" % self.proof.name if self.proof else ""
        return Told("%s has %d command%s%s" % (path, self.count, "" if self.count == 1 else "s", rest))

    def _help(self, _: str) -> Told:
        return Told(HELP)


SHOWN = 30
"""So many theorems are shown at once."""
MOST_DEFINITIONS = 6
"""On so many definitions a theorem may rest, for a line to name them."""

HELP = """\
g `term`, g NAME `term`     state a goal
e TAC                       a step
b, b n                      take n steps back
r n                         put the first goal last
p                           show the goals
qed, qed NAME               make the theorem
oops                        give the proof up
prove, prove with NAMES     look for steps that close the goal
prove (`term`, TAC)         state, prove and make a theorem at once
let NAME = prove (..)       the same with a name; or let NAME = top_thm ()
import NAME                 take a theory in
search PATTERN              theorems by parts of names, or a statement with _
basis NAME                  on what a theorem rests
new_definition ..           and the other commands of a file
undo                        take the last such command back, qed too
history                     all that was accepted
save FILE.hol               write it into a file (save! over another)
quit                        end, as Ctrl-D does
Tab completes a name, Ctrl-C stops a step alone, Ctrl-D ends. A command ends
with its line, or with ;; as in a file."""


def _rests(theorem: Theorem) -> str:
    """On what a theorem rests, in a line: its axioms, and few definitions."""
    basis = theorem.basis or ()
    axioms = [item for item in basis if item.startswith("axiom:")]
    if len(basis) - len(axioms) <= MOST_DEFINITIONS:
        return words.rests(basis)
    return "rests on %s and %d definitions: basis %s lists them" % (", ".join(axioms) or "no axiom of its own", len(basis) - len(axioms), theorem.name)


def _number(text: str, otherwise: int) -> int:
    if not text:
        return otherwise
    if not text.isdigit() or not 0 < int(text[:9]) < 10_000:
        raise Wrong("a number from 1 to 9,999 has to stand here")
    return int(text)


def _read(path: str) -> str:
    try:
        with open(path, encoding="utf-8", errors="replace") as stream:
            return stream.read()
    except OSError as error:
        raise Wrong("%s can't be read: %s" % (path, error.strerror or error)) from None
