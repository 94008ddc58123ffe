"""Proofs and their states: a state is a value, which steps lead on from and none disturbs."""

from __future__ import annotations

from typing import TYPE_CHECKING, Iterable, List, Optional, Sequence, Tuple, Union

from holls.api.engine import Answer, TookTooLong
from holls.api.shown import Read, read
from holls.api.values import Kind, ProgramDied, ProverError, Refused, Theorem, misread, not_taken, refused, refused_whole, too_slow
from holls.protocol import Error, Goal, Goals, Made, Refusal

if TYPE_CHECKING:
    from holls.api.project import Theory


class Proof:
    """A goal that was stated in a theory. `state` is where its proof begins."""

    __slots__ = ("theory", "name", "statement", "state")

    def __init__(self, theory: "Theory", name: str, statement: str, command: Read, goals: Tuple[Goal, ...]) -> None:
        self.theory, self.name, self.statement = theory, name, statement
        self.state = State(self, (command.sent,), (command.written,), goals)


class State:
    """The goals that are open after some steps of a proof, as the program shows them. Nothing changes it.

    Two states of a proof are equal where their goals are, as they are shown: a search needs only one of them. (What is shown has the types
    of free variables and no others, so that unlike states may be equal where a goal binds variables of several types.)
    `path` are the commands that lead here as they are sent, `written` as they are written, from the `g` on.
    """

    __slots__ = ("proof", "path", "written", "goals", "_hash")

    def __init__(self, proof: Proof, path: Tuple[str, ...], written: Tuple[str, ...], goals: Tuple[Goal, ...]) -> None:
        self.proof, self.path, self.goals = proof, path, goals
        self.written = path if written == path else written
        self._hash: Optional[int] = None

    def __eq__(self, other: object) -> bool:
        return isinstance(other, State) and self.proof is other.proof and self.goals == other.goals

    def __hash__(self) -> int:
        if self._hash is None:
            self._hash = hash(self.goals)
        return self._hash

    def __repr__(self) -> str:
        return "<State of %s after %d steps: %d open>" % (self.proof.name, len(self.steps), len(self.goals))

    def __str__(self) -> str:
        return "\n\n".join(map(_goal_text, self.shown)) or "no goal is open"

    @property
    def shown(self) -> Tuple[Goal, ...]:
        """The goals in the notation of the theory."""
        return tuple(map(self.proof.theory.view.goal, self.goals))

    @property
    def steps(self) -> Tuple[str, ...]:
        """The commands that lead here from the proof's beginning, as they are written."""
        return self.written[1:]

    @property
    def goal(self) -> Optional[Goal]:
        """The first goal, which the next step is for; None where none is open."""
        return self.goals[0] if self.goals else None

    @property
    def is_proved(self) -> bool:
        """Whether no goal is open, so that `qed` makes the theorem."""
        return not self.goals

    @property
    def text(self) -> str:
        """The commands that lead here, as they stand in a file."""
        return "".join(command + ";;\n" for command in self.written)

    def apply(self, step: str) -> Union["State", Refused]:
        """The state after a step, an expression of tactics: `state.apply("REWRITE_TAC [ADD] THEN CONJ_TAC")`.

        Raises ProgramDied where the program ends by it.
        """
        return self.apply_all((step,))[0]

    def apply_all(self, steps: Iterable[str]) -> List[Union["State", Refused]]:
        """What each of some steps leads to from here, in their order: much quicker than one by one.

        Raises ProgramDied where the program ends by one: its `done` has what those before it came to, but for those that aren't sent.
        """
        return self._run(["e " + step for step in steps])

    def rotate(self, times: int = 1) -> Union["State", Refused]:
        """The state in which the first goal has been put last, so many times."""
        return self._run(["r %d" % times])[0]

    def follow(self, commands: Iterable[str]) -> Union["State", Refused]:
        """The state behind several commands, `e ..` and `r n`, as `steps` has them (`b` too); or the first refusal among them."""
        state = self
        for command in commands:
            after = state._run([command])[0]
            if isinstance(after, Refused):
                return after
            state = after
        return state

    def _run(self, commands: List[str]) -> List[Union["State", Refused]]:
        theory = self.proof.theory
        reads = [read(command, theory.view) for command in commands]
        sent = [one for one in reads if one.translation.error is None]
        try:
            with theory.prover.engine(theory.context, self.path) as engine:
                answers = engine.attempt(theory.context, self.path, [one.sent for one in sent])
        except ProgramDied as died:
            died.done = [self._after(*pair) for pair in zip(sent, died.done)]
            raise
        known = iter(answers)
        return [misread(one.written, one.translation.error) if one.translation.error else self._after(one, next(known)) for one in reads]

    def _after(self, command: Read, answer: Answer) -> Union["State", Refused]:
        if isinstance(answer, Goals):
            return State(self.proof, self.path + (command.sent,), self.written + (command.written,), answer.goals)
        return no_state(command, answer, self.proof.theory.prover.seconds)

    def qed(self, name: Optional[str] = None) -> Union[Theorem, Refused]:
        """The theorem that this proof makes, under its own name or another, with its commands and what it rests on."""
        theory, name = self.proof.theory, name or self.proof.name
        path, written = self.path, self.written
        if name != self.proof.name:
            first = read(goal_command(name, self.proof.statement), theory.view)
            path, written = (first.sent,) + path[1:], (first.written,) + written[1:]
        with theory.prover.engine(theory.context, path) as engine:
            answer, basis = engine.ended(theory.context, path, name)
        if not isinstance(answer, Made):
            return no_state(read("qed", theory.view), answer, theory.prover.seconds)
        statement = answer.entries[-1].split(" |- ", 1)[1]
        return Theorem(name, statement, theory.name, written + ("qed",), basis)

    def find(self, seconds: float = 5.0, names: Optional[Sequence[str]] = None) -> Union["State", Refused]:
        """The state behind steps that close the first goal, as `holls prove` finds them, within so many seconds, by the theorems that are named
        where any are; or why none were found. Raises ProverError where a named theorem doesn't stand, or the search's program ends."""
        from holls.prover.asking import Silent  # Here alone, since the search takes long to load.
        from holls.prover.finder import Unprovable
        from holls.prover.warm import NoGoal, Request
        if self.is_proved:
            return self
        theory = self.proof.theory
        file = theory.project.text("%s\n\n%s" % (theory.text.rstrip(), self.text), theory.name).file
        searcher = theory.prover.searcher()
        try:
            answer = searcher.search(Request(file, len(file.commands) - 1, theory.project.imports(file), names=names, seconds=seconds))
        except (NoGoal, Silent, Unprovable) as error:
            raise ProverError(str(error)) from None
        except KeyboardInterrupt:
            searcher.stop()
            raise
        return refused_whole("prove", Kind.TIME, "none found" + answer.why) if answer.steps is None else self.follow(answer.steps)

    def premises(self, most: Optional[int] = None) -> List[Theorem]:
        """The theorems that a step may cite, those first that a proof of the first goal may need: what statements like it have cited, those
        that are like it, and the last ones."""
        known = self.proof.theory.known
        return [known[at] for at in self.proof.theory.ranking.ranked(self.goal, most)]


def goal_command(name: str, statement: str) -> str:
    """The command that states a goal."""
    return "g %s `%s`" % (name, statement)


def no_state(command: Read, answer: Optional[Answer], seconds: float) -> Refused:
    """Why a command leads to no state."""
    if isinstance(answer, Refusal):
        return refused(command, answer)
    text = command.written
    if isinstance(answer, TookTooLong):
        return too_slow(text, seconds)
    if isinstance(answer, Error):
        return not_taken(text, answer)
    if answer is None:
        return refused_whole(text, Kind.REQUEST, "this command isn't sent: it is too long, or one too many")
    return refused_whole(text, Kind.COMMAND, "this leads to no state: a step is `e` with an expression, `r n` or `b`")


def _goal_text(goal: Goal) -> str:
    """A goal as HOL Light shows one: assumptions, the oldest first, and what is to be proved."""
    lines = ["%3d [%s]" % (at, text) for at, text in enumerate(reversed(goal.assumptions))]
    return "\n".join(lines + ["`%s`" % goal.conclusion])
