"""A session: one server, kept in step with the theories that are wanted, and asked for what is still unknown of them.

Nothing here waits. The owner hands each event of the server to `hear`, and calls `tick` at the time that `deadline` names.

The server runs commands at edits, and answers an edit when all that it affects has run; a report only shows what stands. So what
takes long, ends the server or finds no memory does it at an edit. Where nothing stands behind the edit's command, this command is why,
and is left out from then on. Else it may be another one, and the session is begun again: there each command is put at an end.
"""

from __future__ import annotations

import time
from collections import deque
from dataclasses import dataclass
from typing import Callable, Deque, Dict, FrozenSet, List, Optional, Tuple, Union

from holls import protocol
from holls.difference import INSERT, REPLACE
from holls.server import Ended, Events, Lines, NoServer, Server
from holls.sweep import Sweep
from holls.theory import DROP, NEW, Change, Entry, Standing, Theory

SLOW_SECONDS = 5.0
"""A command that runs longer is marked."""
PATIENCE_SECONDS = 0.5
"""What is under way for so long is looked at: whether it is worth to be waited for."""
START_SECONDS = 10.0
"""So long, at least, a server may take for what runs no command, as where it starts, however little time a command has."""
ENDS = 6
"""After so many ends of the server since the last edit it isn't started again."""
WINDOW = 64
"""So many requests are sent ahead at most, and hardly more than take so long: a later edit waits for these."""
WINDOW_SECONDS = 0.02
AHEAD = 512
"""So many are sent ahead, however long they take, by one who will send no other edit: program and client then take them by many, and wake one
another seldom."""

Answer = Callable[[Union[protocol.Reply, protocol.Lost]], None]


@dataclass
class _Pending:
    """A request that was sent and what takes its reply: an edit's change, or the entry that is asked for, or what a question's answer goes to.

    After PATIENCE_SECONDS it has a `limit`, and `is_in_the_way` where the server is then started again for what is wanted now.
    """

    change: Optional[Change] = None
    entry: Optional[Entry] = None
    answer: Optional[Answer] = None
    limit: Optional[float] = None
    is_in_the_way: bool = False


class Session:
    """One server in step with `theories`. `sweep` names the commands to be asked for; `told` is called after each news."""

    def __init__(self, program: List[str], events: Events, served: FrozenSet[str], sweep: Sweep,
                 told: Callable[[], None], seconds: float, ahead: Optional[int] = None) -> None:
        """With `ahead` so many requests are sent ahead, however long they take."""
        self.theories: List[Theory] = []
        self._unsettled: List[Theory] = []
        self._by_name: Dict[str, Theory] = {}
        self.failure: Optional[str] = None
        self.slow_seconds = SLOW_SECONDS
        self._program, self._events, self._served, self._ahead = program, events, served, ahead
        self.seconds = seconds
        self._sweep, self._told = sweep, told
        self._server: Optional[Server] = None
        self._standing = Standing()
        self._is_in_step = False
        self._pending: Deque[_Pending] = deque()
        self._changes: Deque[Change] = deque()
        self._questions: Deque[Tuple[bytes, Answer]] = deque()
        self._lines: List[bytes] = []
        self._since = 0.0
        self._took_edit = self._took = 0.0
        self._begun: Optional[float] = None
        self._start_seconds = 0.0
        self._ends = self._rounds = 0
        self._is_refused = self._dozes = False
        self._short: Optional[Change] = None

    def want(self, theories: List[Theory]) -> None:
        """Takes the theories as they are to stand, in the order in which they are to be run."""
        self.theories, self._by_name, self._unsettled = theories, {theory.name: theory for theory in theories}, theories
        self.failure, self._ends, self._rounds, self._dozes = None, 0, 0, False
        self._begin_edit()
        if self._pending:
            self._pending[0].limit = None
        self.pump()

    def ask(self, request: bytes, answer: Answer) -> None:
        """Asks something beside the reports, once the server is in step. The answer is Lost where the server ends before."""
        self._questions.append((request, answer))
        self._dozes = False
        self.pump()

    def doze(self) -> bool:
        """Ends the server until something is wanted or asked anew, if nothing is under way. Answers whether that was so."""
        if self._pending or self._changes or self._questions or not self._is_in_step:
            return False
        self.stop()
        self._dozes = True
        return True

    def ask_beside(self, theory: str, commands: List[str], answer: Answer) -> None:
        """Asks for the report on the last of some commands, in a theory of their own that stands behind all others for so long."""
        edits = [{"op": INSERT, "theory": theory, "at": at, "text": text} for at, text in enumerate(commands)]
        first = {"op": NEW, "name": theory, "at": len(self.theories)}
        for request in [first] + edits:
            self.ask(protocol.line(request), lambda _: None)
        self.ask(protocol.line({"op": "report", "theory": theory, "at": len(commands) - 1}), answer)
        self.ask(protocol.line({"op": DROP, "name": theory}), lambda _: None)

    def stop_running(self) -> None:
        """Stops the command that is marked as running long: it is left out; or where others may be why, each is run by itself."""
        head = self._pending[0] if self._pending else None
        entry = self._entry(head.change) if head and head.change else None
        if entry is None or not entry.is_slow:
            return
        if not self._standing.is_last(head.change, self.theories):
            self.stop()
        else:
            self._give_up(head, "it was stopped")
        self._told()
        self.pump()

    # Sending

    def pump(self) -> None:
        """Sends what can be sent now."""
        self._fill()
        if self._lines and self._server:
            self._server.send(b"\n".join(self._lines))
        self._lines = []

    def _fill(self) -> None:
        """Finds what can be sent now."""
        if self.failure or self._dozes or not self._is_in_step and not self._find_changes():
            return
        window = self._window(self._took_edit)
        while self._changes and len(self._pending) < window:
            self._edit(self._changes.popleft())
        if self._changes or any(pending.change for pending in self._pending):
            return
        self._rounds = 0
        while self._questions:
            request, answer = self._questions.popleft()
            self._send(request, _Pending(answer=answer))
        self._ask_ahead()

    def _begin_edit(self) -> None:
        """What was still to be sent isn't: the changes are found anew once all has been answered."""
        self._changes.clear()
        self._is_in_step = False

    def _find_changes(self) -> bool:
        """Finds what is to be sent to be in step, to a fresh server where that is needed, once nothing is under way."""
        if self._pending:
            return False
        try:
            changes = self._standing.changes(self.theories, self._served) if self._server else None
            if changes is None:
                self.stop()
                self._server, self._begun = Server(self._program, self._events), time.monotonic()
                self._server.is_patient = self._ahead is not None
                changes = self._standing.changes(self.theories, self._served)
        except NoServer as error:
            self.failure = str(error)
            self._told()
            return False
        self._changes = deque(changes or [])
        self._is_in_step, self._is_refused = True, False
        return True

    def _edit(self, change: Change) -> None:
        """Sends a change, and asks for its command right behind it: no later change comes before this one's place."""
        self._send(change.line(), _Pending(change))
        entry = self._entry(change)
        if entry is None or entry.report is not None or entry.is_asked:
            return
        theory = self._by_name[change.theory]
        if self._sweep.asks(theory):
            self._ask(theory, change.at)

    def _ask_ahead(self) -> None:
        window = self._window(self._took)
        while len(self._pending) < window:
            job = self._sweep.pick()
            if job is None:
                return
            theory, at = job
            if theory in self.theories:
                self._ask(theory, at)

    def _ask(self, theory: Theory, at: int) -> None:
        entry = theory.entries[at]
        entry.is_asked = True
        request = b'{"op":"report","theory":"%s","at":%d}' % (theory.name.encode(), at)  # A theory's name has no character that JSON escapes.
        self._send(request, _Pending(entry=entry))

    def _window(self, took: float) -> int:
        """How many requests are sent ahead, where the last ones took so many seconds each."""
        return self._ahead or max(1, min(WINDOW, int(WINDOW_SECONDS / max(took, 1e-6))))

    def _send(self, line: bytes, pending: _Pending) -> None:
        if not self._pending:
            self._since = time.monotonic()
        self._pending.append(pending)
        self._lines.append(line)

    def _entry(self, change: Change) -> Optional[Entry]:
        """The command that a change puts, if it is wanted there and can be left out. A hidden one never is why a server fails."""
        theory = self._by_name.get(change.theory)
        if change.op not in (INSERT, REPLACE) or theory is None or change.at >= len(theory.entries):
            return None
        entry = theory.entries[change.at]
        return None if entry.text != change.text or entry.is_left_out or entry.is_hidden else entry

    # Hearing

    def hear(self, *events: Union[Lines, Ended]) -> None:
        """Takes events of a server, in their order; those of an earlier server are of no interest."""
        is_heard = False
        for event in events:
            if event.server is not self._server:
                continue
            is_heard = True
            if isinstance(event, Ended):
                self._lose(event.reason)
            else:
                self._hear_lines(event)
        if is_heard:
            for theory in self._unsettled:
                theory.settle()
            self._unsettled = [theory for theory in self._unsettled if not theory.is_settled]
            self._told()
            self.pump()

    def _hear_lines(self, event: Lines) -> None:
        """Takes replies that came together: each took its part of the time since those before them."""
        now = time.monotonic()
        took, self._since = (now - self._since) / max(1, min(len(event.lines), len(self._pending))), now
        if self._begun is not None:
            self._start_seconds, self._begun = now - self._begun, None
        for line in event.lines:
            self._heard(protocol.reply(line), took)
            if event.server is not self._server:
                return

    def _heard(self, reply: protocol.Reply, took: float) -> None:
        if isinstance(reply, protocol.Unreadable) or not self._pending:
            self._lose("wrote a line that is no reply")
            return
        pending = self._pending.popleft()
        if pending.change is not None:
            self._took_edit = took
            self._edited(pending.change, reply)
        elif pending.entry is not None:
            self._took = took
            self._reported(pending.entry, reply)
        else:
            self._took = took
            pending.answer(reply)

    def _edited(self, change: Change, reply: protocol.Reply) -> None:
        """Takes the reply to a change. What was sent behind a refused one may have gone to a wrong place: the difference is sent then."""
        entry = self._entry(change)
        if entry:
            entry.is_slow = False
        if isinstance(reply, protocol.Done):
            self._standing.apply(change, self._took_edit)
        elif not self._is_refused:
            self._is_refused = True
            self._begin_edit()
            self._refused(change, entry, reply)

    def _refused(self, change: Change, entry: Optional[Entry], reply: protocol.Reply) -> None:
        """An edit that changed nothing: sent again once. Where it has no memory again, another command may be why: then from the start.

        At the memory line the program lets go of what it kept for later, so that the same line may find memory the second time.
        """
        has_no_memory = isinstance(reply, protocol.Error) and reply.number == protocol.MEMORY
        if has_no_memory and not self._standing.is_last(change, self.theories):
            if self._short == change:
                self.stop()
            self._short = None if self._short == change else change
        elif has_no_memory and entry:
            self._strike(entry, "hol_serve had no memory for it", True)
        else:
            self._rounds += 1
            if self._rounds > 1:
                self._lose("refused an edit twice: " + (reply.text if isinstance(reply, protocol.Error) else "a reply of another kind"))

    def _reported(self, entry: Entry, reply: protocol.Reply) -> None:
        entry.is_asked = False
        if self._is_refused:
            return
        if isinstance(reply, (protocol.Goals, protocol.Made, protocol.Refusal)):
            entry.report = reply
        elif isinstance(reply, protocol.Error) and reply.number == protocol.MEMORY:
            self._strike(entry, "hol_serve had no memory to show it", False)
        else:
            self._lose("gave no report when asked for one")

    def _strike(self, entry: Entry, reason: str, is_left_out: bool) -> None:
        """A command that has cost two servers, or memory twice, isn't asked for again; nor run, where that was why."""
        entry.strikes += 1
        if entry.strikes > 1:
            entry.report, entry.is_left_out = protocol.Lost(reason), is_left_out
            self._standing.look_again()

    def _lose(self, reason: str) -> None:
        """Gives the server up. The command that it ran may be why; an end where none was run is forgiven once, as are a few others."""
        head = self._pending[0] if self._pending else None
        entry = self._entry(head.change) if head and head.change else head.entry if head else None
        is_last = not (head and head.change) or self._standing.is_last(head.change, self.theories)
        is_edit = bool(head and head.change)
        self.stop()
        self._ends += 1
        if entry and is_last:
            self._strike(entry, "hol_serve " + reason, is_edit)
        is_unexplained = head is not None and entry is None or self._rounds > 1
        if self._ends > ENDS or is_unexplained and self._ends > 1:
            self.failure = "hol_serve %s, and again when it was started anew" % reason

    def stop(self) -> None:
        """Ends the server. What was asked of it is Lost."""
        lost, self._pending = self._pending, deque()
        self._lines = []
        server, self._server, self._begun = self._server, None, None
        self._begin_edit()
        self._standing = Standing()
        if server:
            server.stop()
        for pending in lost:
            entry = self._entry(pending.change) if pending.change else None
            if entry:
                entry.is_slow = False
            if pending.entry is not None:
                pending.entry.is_asked = False
            elif pending.answer is not None:
                pending.answer(protocol.Lost("hol_serve was started anew"))

    # Times

    @property
    def is_idle(self) -> bool:
        """Whether no reply is awaited."""
        return not self._pending and not self._changes

    def _age(self) -> float:
        return time.monotonic() - self._since

    def deadline(self) -> Optional[float]:
        """In how many seconds `tick` has something to do."""
        if not self._pending:
            return None
        head = self._pending[0]
        limit = PATIENCE_SECONDS if head.limit is None else head.limit
        entry = self._entry(head.change) if head.limit is not None and head.change else None
        if entry and not entry.is_slow:
            limit = min(limit, self.slow_seconds)
        return max(0.0, limit - self._age())

    def tick(self) -> None:
        """Looks whether what takes long is worth to be waited for, marks it later, and gives it up in the end.

        As long as events wait to be heard, one of them may be what is waited for.
        """
        if not self._pending or self.deadline() or not self._events.empty():
            return
        head = self._pending[0]
        if head.limit is None:
            self._judge(head)
            return
        if self._age() < head.limit:
            self._entry(head.change).is_slow = True
        elif head.is_in_the_way:
            self.stop()
        else:
            self._give_up(head)
        self._told()
        self.pump()

    def _judge(self, head: _Pending) -> None:
        """Sets how long a request may take. One that isn't wanted any more may take as long as it would to come back to its place in
        another server, where a start counts twice; one that affects more than its command as long as all that stands took, since there
        each would come by itself."""
        change = head.change
        back = self._standing.seconds_before(change) if change else self._standing.seconds
        head.is_in_the_way = not self._is_in_step and not self._is_wanted(change)
        if not head.is_in_the_way and change and not self._standing.is_last(change, self.theories):
            head.is_in_the_way, back = True, self._standing.seconds
        if head.is_in_the_way:
            head.limit = max(PATIENCE_SECONDS, 2 * self._start_seconds + back)
        else:
            runs = change is None or self._entry(change)
            head.limit = self.seconds if runs else max(START_SECONDS, self.seconds)

    def _is_wanted(self, change: Optional[Change]) -> bool:
        """Whether a change under way is what would be sent first now."""
        wanted = self._standing.changes(self.theories, self._served)
        return bool(wanted) and wanted[0] == change

    def _give_up(self, head: _Pending, stopped: Optional[str] = None) -> None:
        """A request takes too long, and no other command is why; or it was stopped."""
        entry = self._entry(head.change) if head.change else head.entry
        if entry is None:
            self._lose(stopped or "gave no answer within %d seconds" % head.limit)
            return
        entry.report = protocol.Lost(stopped or "hol_serve gave no answer within %d seconds" % self.seconds)
        entry.is_left_out = head.change is not None
        self.stop()
