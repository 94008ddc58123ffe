"""The page's server for many, over aiohttp: files, and for each page that is open a bridge, between which messages are passed on.

It knows nothing of what they say. Nothing is queued in between: what the page doesn't read, the bridge can't write, and the other way round. Each
limit is told to the page in a sentence, when its socket is closed, and ends that session alone.
"""

from __future__ import annotations

import asyncio
import hmac
import json
import secrets
import signal
import socket
import sys
import time
from collections import deque
from dataclasses import dataclass, field
from pathlib import Path
from typing import Any, Callable, Deque, Dict, List, Optional, Sequence, Set, Tuple
from urllib.parse import urlsplit

from aiohttp import WSCloseCode, WSMsgType, web

from holls.page import KINDS, POLICY
from holls.say import say
from holls.serving import nursery, usage
from holls.serving.keeping import Keeping, NotKept
from holls.serving.progress import MARK, params
from holls.serving.rates import Bucket, ByAddress
from holls.serving.watching import COOKIE, KEY_COOKIE, Class, from_cookie, key_of, name_of, to_cookie
from holls.serving.wires import BACKLOG, OF_A_PAGE, Wire, Wires

MESSAGE_BYTES = 4 << 20
"""A longer message, either way, ends the session."""
TOO_BIG = "a message has more than %d MB: a theory here can't be so long" % (MESSAGE_BYTES >> 20)
BEAT_SECONDS, SEND_SECONDS, END_SECONDS, LOOK_SECONDS = 30, 60, 3, 2.0
"""So often a page is asked whether it is there; so long it may take to read a message, and a bridge to end; so often it is looked what sessions use."""
SHARE_SECONDS, TIMES_BEHIND = 30, 2
"""What a session may have of the processor in so many seconds in the long run it may have at once; then it comes after the others, so often at most."""
MESSAGES, MOST_MESSAGES = 50, 500
"""So many messages a second a session may send in the long run, and so many at once. More of them wait."""
ANSWERS = 4
"""So many times as many messages a session may be sent: what is asked and what is told besides."""
BYTES, MOST_BYTES = 1 << 20, 32 << 20
"""So many bytes a second a session may send, and be sent, in the long run, and so many at once. More of them wait."""
FULL, IDLE, ENDED, SPENT = 4000, 4001, 4002, 4003
"""What a closed socket says: there is no room; nothing was done for long; the bridge has ended; the session has used up what it may."""
BURST_SECONDS = 30
"""An address that was quiet may do at once what else it may do in so many seconds."""
COOKIE_SECONDS = 200 * 24 * 3600
"""So long a browser keeps a student's name."""
NEXT_SECONDS, LATER_SECONDS = 15, 5
"""So long a connection may take until it asks for something else; and so long who asks too often waits."""
PAGES_SECONDS = 60
"""In so many seconds in the long run an address may begin as many pages as it may have, and twice as many at once."""
AHEAD_SECONDS = 1.0
"""So often at most a bridge is made ahead: it has the processor for as long, where it runs theories."""
NOT_KEPT = "the server can't keep what you write in %s any more: save it, and hand that in"
KEPT_AGAIN = "what you write in %s is kept again"
REASON_BYTES = 123
"""So long is the sentence at most with which a socket is closed."""

End = Tuple[int, str]
"""With what code and sentence a session ends."""


@dataclass(frozen=True)
class Settings:
    """What the server gives. `origins` are the addresses under which browsers know it, `theories` the folders in which theories are looked for, in
    their order. Where there is a course, `course` makes the page with its exercises for a student's name, `watched` knows how far all are, and who has the
    `key` sees that. So many bridges wait `ahead` of their pages; `keeping` keeps texts; with `is_quiet` nothing is logged. A session may have such
    a `share` of a processor before it comes after the others."""

    page: Path
    theories: Tuple[Path, ...]
    origins: Tuple[str, ...]
    sessions: int
    each: int
    idle_seconds: float
    processor: int
    memory: int
    rate: int
    is_behind_proxy: bool
    course: Optional[Callable[[str], str]] = None
    watched: Optional[Class] = None
    key: str = ""
    ahead: int = 0
    keeping: Optional[Keeping] = None
    is_quiet: bool = False
    share: float = 0.1


@dataclass(eq=False)
class Session:
    """A page that is open: its socket, its address, its number, the name that its student gave with the key of the browser, the number of its bridge, and
    what says that it is to end. Of the files `lost` the last text couldn't be kept; `used` seconds of the processor it had when it was looked at last, `share`
    is what it may have before it comes further behind the others, which it did `behind` times."""

    socket: "web.WebSocketResponse"
    transport: Optional[asyncio.BaseTransport]
    address: str
    number: int
    share: Bucket
    student: str = ""
    key: str = ""
    process: int = 0
    lost: Set[str] = field(default_factory=set)
    used: float = 0.0
    behind: int = 0
    begun: float = field(default_factory=time.monotonic)
    spent: "asyncio.Future[End]" = field(default_factory=lambda: asyncio.get_running_loop().create_future())


class Socket(web.WebSocketResponse):
    """A page's socket, which says why it is closed where aiohttp closes it by itself."""

    async def close(self, *, code: int = WSCloseCode.OK, message: bytes = b"", **more: Any) -> bool:
        """As aiohttp's."""
        if code == WSCloseCode.MESSAGE_TOO_BIG and not message:
            message = TOO_BIG.encode()
        return await super().close(code=code, message=message, **more)


class Service:
    """The server."""

    def __init__(self, settings: Settings, born: nursery.Nursery) -> None:
        self.settings, self._nursery = settings, born
        self.sessions: List[Session] = []
        self._hosts = {urlsplit(origin).netloc for origin in settings.origins}
        self._policy = POLICY % " ".join(origin.replace("http", "ws", 1) for origin in settings.origins)
        self._rates = ByAddress(settings.rate, settings.rate * BURST_SECONDS)
        self._begins = ByAddress(settings.each / PAGES_SECONDS, 2 * settings.each)
        self._ahead: Deque[Tuple[socket.socket, int]] = deque()
        self._number = 0
        self._wires: Optional[Wires] = None

    async def run(self, listening: socket.socket) -> None:
        """Serves until the process is told to end."""
        runner = web.AppRunner(self.application(), access_log=None, keepalive_timeout=NEXT_SECONDS)
        await runner.setup()
        self._wires = Wires(runner.server, None if self.settings.is_behind_proxy else OF_A_PAGE * self.settings.each)
        over, loop = asyncio.Event(), asyncio.get_running_loop()
        for number in (signal.SIGINT, signal.SIGTERM):
            loop.add_signal_handler(number, over.set)
        server = await loop.create_server(self._wires, sock=listening, backlog=BACKLOG)
        await over.wait()
        server.close()
        await runner.shutdown()
        await runner.server.shutdown()
        await runner.cleanup()

    def application(self) -> "web.Application":
        """What aiohttp runs."""
        made = web.Application(middlewares=[_middleware(self._guard)], client_max_size=1 << 16)
        made.add_routes([
            web.get("/bridge", self._bridge), web.get("/health", self._health), web.get("/course", self._course), web.get("/", self._file),
            web.get("/teacher/{key}", self._teacher), web.get("/{name}", self._file), web.get("/theories/{name}", self._theory)])
        made.cleanup_ctx.append(self._working)
        made.on_shutdown.append(self._shut)
        return made

    # Files

    async def _guard(self, request: "web.Request", handler: object) -> "web.StreamResponse":
        """Lets through who asks for this server, and not too often."""
        wire, address = _wire(request), self._address(request)
        if wire:
            wire.heard()
        if not self._rates.takes(address):
            await asyncio.sleep(LATER_SECONDS)
            if not self._rates.takes(address):
                raise web.HTTPTooManyRequests(text="too many requests come from your address: wait a little\n", headers={"Retry-After": "5"})
        if request.headers.get("Host", "") not in self._hosts:
            raise web.HTTPForbidden(text="this server isn't known by that name: its --origin says which it has\n")
        return await handler(request)

    def _address(self, request: "web.Request") -> str:
        """Who asks: behind a proxy what that says last, which nobody else can."""
        told = request.headers.getall("X-Forwarded-For", []) if self.settings.is_behind_proxy else []
        return (told[-1].rpartition(",")[2].strip() if told else request.remote or "")[:64]

    async def _file(self, request: "web.Request") -> "web.StreamResponse":
        return self._answer([self.settings.page], request.match_info.get("name", "index.html"))

    async def _theory(self, request: "web.Request") -> "web.StreamResponse":
        return self._answer(self.settings.theories, request.match_info["name"])

    def _answer(self, folders: Sequence[Path], name: str) -> "web.StreamResponse":
        """A file of one of the folders, of the kinds that are served, and of no folder else: its name has no path in it."""
        kind = KINDS.get(Path(name).suffix)
        path = next((folder / name for folder in folders if kind and Path(name).name == name and _is_file(folder / name)), None)
        if path is None:
            raise web.HTTPNotFound()
        return web.Response(body=path.read_bytes(), headers=self._headers(kind))

    def _headers(self, kind: str) -> Dict[str, str]:
        return {"Content-Type": kind, "Cache-Control": "no-cache", "Content-Security-Policy": self._policy, "X-Content-Type-Options": "nosniff",
                "Referrer-Policy": "no-referrer"}

    async def _course(self, request: "web.Request") -> "web.StreamResponse":
        """The exercises. Who gives a name there is known by it from then on: a teacher sees who is where."""
        if self.settings.course is None:
            raise web.HTTPNotFound()
        given = request.query.get("name")
        name = from_cookie(request.cookies.get(COOKIE)) if given is None else name_of(given)
        headers = dict(self._headers(KINDS[".html"]))
        headers["Content-Security-Policy"] = self._policy.replace("form-action 'none'", "form-action 'self'")
        answer = web.Response(text=self.settings.course(name), headers=headers)
        if given is not None:
            key = key_of(request.cookies.get(KEY_COOKIE)) or secrets.token_urlsafe(16)
            for cookie, value in ((COOKIE, to_cookie(name)), (KEY_COOKIE, key)):
                answer.set_cookie(cookie, value, httponly=True, samesite="Strict", max_age=COOKIE_SECONDS)
        return answer

    async def _teacher(self, request: "web.Request") -> "web.StreamResponse":
        """How far all are, to who has the key."""
        watched = self.settings.watched
        if watched is None or not hmac.compare_digest(request.match_info["key"].encode("utf-8", "replace"), self.settings.key.encode()):
            raise web.HTTPNotFound()
        there = list(dict.fromkeys(session.student for session in self.sessions if session.student))
        return web.Response(text=watched.page(there), headers=self._headers(KINDS[".html"]))

    async def _health(self, _: "web.Request") -> "web.StreamResponse":
        return web.json_response({"sessions": len(self.sessions), "room": self.settings.sessions - len(self.sessions)})

    # Sessions

    async def _bridge(self, request: "web.Request") -> "web.StreamResponse":
        """A session, until one of its ends is gone."""
        if request.headers.get("Origin") not in self.settings.origins:
            raise web.HTTPForbidden(text="the page comes from elsewhere: --origin says from where it may come\n")
        page = Socket(heartbeat=BEAT_SECONDS, max_msg_size=MESSAGE_BYTES, timeout=END_SECONDS)
        await page.prepare(request)
        self._number += 1
        cookies = request.cookies
        session = Session(page, request.transport, self._address(request), self._number,
                          self._whole_share(), from_cookie(cookies.get(COOKIE)), key_of(cookies.get(KEY_COOKIE)))
        refused = self._refused(session.address)
        if refused:
            self._log(session, "is refused: %s" % refused)
            await _close(session, (FULL, refused))
            return page
        self.sessions.append(session)
        wire = _wire(request)
        if wire:
            wire.stays()
        self._log(session, "begins; %d are open" % len(self.sessions))
        try:
            await self._talk(session)
        finally:
            self.sessions.remove(session)
        return page

    def _log(self, session: Session, words: str) -> None:
        """A line on standard error, with the time. It has nothing that a student has written."""
        if not self.settings.is_quiet:
            say("%s page %d of %s %s" % (time.strftime("%Y-%m-%d %H:%M:%S"), session.number, session.address, words), sys.stderr)

    def _refused(self, address: str) -> Optional[str]:
        """Why there is no room for another session."""
        if len(self.sessions) >= self.settings.sessions:
            return "%d pages are open, and there is room for no more: this one tries again by itself" % len(self.sessions)
        if sum(session.address == address for session in self.sessions) >= self.settings.each:
            return "%d pages are open from your address, and there may be no more: close one" % self.settings.each
        if not self._begins.takes(address):
            return "too many pages were begun from your address: this one tries again by itself"
        return None

    async def _talk(self, session: Session) -> None:
        page = session.socket
        try:
            pair, session.process = self._next_bridge()
        except OSError as error:
            await _close(session, (ENDED, "no program can be started: %s" % (error.strerror or error)))
            return
        reader, writer = await asyncio.open_connection(sock=pair)
        telling = asyncio.ensure_future(_tell(reader, page, lambda told: self._take(session, told)))
        hearing = asyncio.ensure_future(_hear(page, writer, self.settings.idle_seconds))
        try:
            await asyncio.wait({telling, hearing, session.spent}, return_when=asyncio.FIRST_COMPLETED)
        finally:
            end = _end_of(session.spent, hearing, telling)
            hearing.cancel()
            if session.spent.done():
                nursery.kill(session.process)
            elif not telling.done():
                writer.write_eof()  # The bridge reads an end, and ends with its program; what it still says is read.
                await asyncio.wait({telling}, timeout=END_SECONDS)
            if not reader.at_eof():  # It still has its end of the pair, or a program of its own does much.
                nursery.kill(session.process)
            telling.cancel()
            session.spent.cancel()
            writer.close()
            self._log(session, "ends after %d s: %s" % (time.monotonic() - session.begun, end[1] or "it was closed"))
            await _close(session, end)

    def _next_bridge(self) -> Tuple[socket.socket, int]:
        """A bridge: one that was made ahead, if one is there that hasn't ended."""
        while self._ahead:
            pair, process = self._ahead.popleft()
            if _is_open(pair):
                return pair, process
            pair.close()
        return self._nursery.bear()

    def _take(self, session: Session, told: List[Dict[str, Any]]) -> List[str]:
        """Takes how far a page is, and its texts where these are kept. Answers what the page is to be told."""
        if self.settings.watched is not None:
            self.settings.watched.hear(session.student or session.address, told)
        if not (self.settings.keeping and session.student and session.key):
            return []
        return [words for one in told for words in self._keep(session, one["file"], one.get("text"))]

    def _keep(self, session: Session, file: str, text: Optional[str]) -> List[str]:
        """Keeps a text of an exercise's file; one that is too long for it isn't told. Answers words where it is otherwise than before."""
        why = None if text is not None else "%s is too long" % file
        try:
            if text is not None:
                self.settings.keeping.put(session.student, session.key, file, text)
        except NotKept as error:
            why = str(error)
        if (why is not None) == (file in session.lost):
            return []
        session.lost ^= {file}
        self._log(session, "isn't kept: %s" % why if why else "is kept again")
        return [(NOT_KEPT if why else KEPT_AGAIN) % file]

    async def _working(self, _: "web.Application"):  # noqa: ANN202: aiohttp's way to begin and end something with the server
        tasks = [asyncio.ensure_future(work()) for work in (self._look, self._make_ahead)]
        yield
        for task in tasks:
            task.cancel()
        for pair, _ in self._ahead:
            pair.close()

    async def _make_ahead(self) -> None:
        """Has bridges wait for pages, one after the other."""
        while True:
            if len(self._ahead) < min(self.settings.ahead, self.settings.sessions - len(self.sessions)):
                try:
                    self._ahead.append(self._nursery.bear(True))
                except OSError:
                    return  # None can be started any more, as the next page is told.
            await asyncio.sleep(AHEAD_SECONDS)

    async def _look(self) -> None:
        """Looks again and again what sessions use, and ends those that use too much."""
        while True:
            await asyncio.sleep(LOOK_SECONDS)
            if self._wires:
                self._wires.end_silent()
            found = usage.of_groups([session.process for session in self.sessions if session.process])
            for session in list(self.sessions):
                used = found.get(session.process, usage.Usage())
                self._share(session, used.seconds)
                words = self._spent(used)
                if words:
                    _spend(session, (SPENT, words))

    def _share(self, session: Session, seconds: float) -> None:
        """Puts a session behind the others that has had too much of the processor; and further behind, where it has had as much again."""
        owes = session.share.owes(max(0.0, seconds - session.used))
        session.used = seconds
        if owes and session.behind < TIMES_BEHIND:
            session.share, session.behind = self._whole_share(), session.behind + 1
            nursery.put_behind(session.process)

    def _whole_share(self) -> Bucket:
        return Bucket(self.settings.share, self.settings.share * SHARE_SECONDS)

    def _spent(self, used: usage.Usage) -> Optional[str]:
        """Why a session may use no more."""
        if used.seconds > self.settings.processor:
            return "this page has used the %d seconds of the processor that it may have: it begins anew" % self.settings.processor
        if used.memory > self.settings.memory << 20:
            return "this page has used the %d MB of memory that it may have: it begins anew" % self.settings.memory
        return None

    async def _shut(self, _: "web.Application") -> None:
        for session in self.sessions:
            _spend(session, (WSCloseCode.GOING_AWAY, "the server is started anew"))
        end = asyncio.get_running_loop().time() + END_SECONDS
        while self.sessions and asyncio.get_running_loop().time() < end:
            await asyncio.sleep(0.02)


def _middleware(guard):  # noqa: ANN001, ANN202
    """A method as aiohttp's middleware."""
    @web.middleware
    async def called(request: "web.Request", handler: object) -> "web.StreamResponse":
        return await guard(request, handler)
    return called


def _wire(request: "web.Request") -> Optional[Wire]:
    """The connection by which a request has come, if it is still there."""
    wire = request.transport.get_protocol() if request.transport is not None else None
    return wire if isinstance(wire, Wire) else None


def _spend(session: Session, end: End) -> None:
    """Has a session end so, if it doesn't end yet."""
    if not session.spent.done():
        session.spent.set_result(end)


def _is_file(path: Path) -> bool:
    try:
        return path.is_file()
    except (OSError, ValueError):
        return False


def _is_open(pair: socket.socket) -> bool:
    """Whether a socket's other end is there."""
    try:
        return pair.recv(1, socket.MSG_PEEK | socket.MSG_DONTWAIT) != b""
    except BlockingIOError:
        return True
    except OSError:
        return False


def _end_of(*tasks: "asyncio.Future[End]") -> End:
    """With what a session ends: what the first of them says that has ended."""
    for task in tasks:
        if task.done() and not task.cancelled() and task.exception() is None:
            return task.result()
    return ENDED, "the bridge has ended"


async def _close(session: Session, end: End) -> None:
    """Closes a page's socket with a sentence. The connection of one that reads nothing is cut."""
    if session.socket.closed:
        return
    code, words = end
    try:
        await asyncio.wait_for(session.socket.close(code=code, message=words.encode("utf-8")[:REASON_BYTES]), END_SECONDS)
    except asyncio.TimeoutError:
        if session.transport is not None:
            session.transport.abort()


async def _tell(reader: asyncio.StreamReader, page: "web.WebSocketResponse", take: Callable[[List[Dict[str, Any]]], List[str]]) -> End:
    """Hands a bridge's messages to its page, but for those that tell how far it is. What the page doesn't read, the bridge can't write."""
    messages, bytes_ = Bucket(ANSWERS * MESSAGES, ANSWERS * MOST_MESSAGES), Bucket(BYTES, MOST_BYTES)
    while True:
        body = await _body(reader)
        if body is None:
            return ENDED, "the bridge has ended: it begins anew"
        texts = list(map(_warning, take(params(body)))) if body.startswith(MARK) else [body.decode("ascii")]
        if max(map(len, texts), default=0) > MESSAGE_BYTES:
            return ENDED, "an answer has more than %d MB: this page begins anew" % (MESSAGE_BYTES >> 20)
        for text in () if page.closed else texts:  # Of a page that is closed the rest is read, so that the bridge comes to its end.
            await messages.wait(1)
            await bytes_.wait(len(text))
            try:
                await asyncio.wait_for(page.send_str(text), SEND_SECONDS)
            except (asyncio.TimeoutError, ConnectionError):
                return ENDED, "the page reads nothing"


def _warning(words: str) -> str:
    """A message that has a page show these words."""
    return json.dumps({"jsonrpc": "2.0", "method": "window/showMessage", "params": {"type": 2, "message": words}})


async def _body(reader: asyncio.StreamReader) -> Optional[bytes]:
    """The next message of a bridge; None at its end."""
    try:
        head = await reader.readline()
        await reader.readline()
        return await reader.readexactly(int(head.split(b":")[1])) if head else None
    except (asyncio.IncompleteReadError, ConnectionError):
        return None


async def _hear(page: "web.WebSocketResponse", writer: asyncio.StreamWriter, idle: float) -> End:
    """Hands a page's messages to its bridge. What the bridge doesn't read, the page can't send."""
    messages, bytes_ = Bucket(MESSAGES, MOST_MESSAGES), Bucket(BYTES, MOST_BYTES)
    while True:
        try:
            message = await page.receive(timeout=idle)
        except asyncio.TimeoutError:
            return IDLE, "nothing was done here for long: the next key begins anew"
        if message.type == WSMsgType.ERROR or message.type == WSMsgType.CLOSE and message.data == WSCloseCode.MESSAGE_TOO_BIG:
            return WSCloseCode.MESSAGE_TOO_BIG, TOO_BIG
        if message.type != WSMsgType.TEXT:
            return WSCloseCode.OK, ""
        body = message.data.encode("utf-8", "replace")
        await messages.wait(1)
        await bytes_.wait(len(body))
        try:
            writer.write(b"Content-Length: %d\r\n\r\n" % len(body) + body)
            await writer.drain()
        except ConnectionError:
            return ENDED, "the bridge has ended: it begins anew"
