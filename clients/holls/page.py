"""`holls page`: serves the page to this machine's browser, and to each page that is open a bridge of its own, as an editor has one.

A browser gets the files of the folder page/, the theories of the library, and by a WebSocket at /bridge the messages of the Language Server
Protocol, one in each message of text. Nothing is kept here: the page holds its theories, and opens them anew where a bridge has ended.
"""

from __future__ import annotations

import argparse
import socket as sockets
import sys
import threading
import time
import webbrowser
from http import HTTPStatus
from http.server import BaseHTTPRequestHandler, ThreadingHTTPServer
from pathlib import Path
from typing import Any, Dict, List, Optional

from holls import carried, relay, server
from holls.websocket import WebSocket, accept_key

FOLDER, LIBRARY = carried.folder("page"), carried.folder("theories")
"""The page's files, and the theories that each page may import."""

ADDRESS = "127.0.0.1"
"""Nobody but this machine is served."""
PORT = 8765
MOST_PORT = 65_535

PAGES = 32
"""So many pages are open at once at most."""
CONNECTIONS = 256
"""So many connections may wait for a request or its answer: where there is one more, the oldest of them is ended."""
REQUEST_SECONDS = 10
"""So long a connection may take for a request with its answer, and be kept until the next one."""
SILENT_SECONDS = 60
"""So long a page may be silent, which is asked again and again meanwhile, or may leave unread what it is sent."""

KINDS = {
    ".html": "text/html; charset=utf-8", ".css": "text/css; charset=utf-8", ".js": "text/javascript; charset=utf-8",
    ".svg": "image/svg+xml", ".hol": "text/plain; charset=utf-8",
}
"""The kinds of files that a page has."""
POLICY = "default-src 'self'; connect-src 'self' %s; base-uri 'none'; form-action 'none'; frame-ancestors 'none'"


class Pages(ThreadingHTTPServer):
    """The server. `bridge` are the words that start what each page gets one of, `library` is the folder of the theories that it knows."""

    daemon_threads = True
    request_queue_size = 128

    def __init__(self, port: int, bridge: List[str], library: Optional[Path]) -> None:
        super().__init__((ADDRESS, port), _Request)
        self.bridge, self.library = bridge, library
        self.room = threading.Semaphore(PAGES)
        self._lock = threading.Lock()
        self._asking: Dict[sockets.socket, float] = {}

    @property
    def address(self) -> str:
        """Where the page is."""
        return "http://%s:%d/" % (ADDRESS, self.server_port)

    def is_own(self, host: str) -> bool:
        """Whether a host is this server: else another page has found its way here."""
        names = (ADDRESS, "localhost")
        return host in ["%s:%d" % (name, self.server_port) for name in names] or self.server_port == 80 and host in names

    def process_request(self, request: Any, client_address: Any) -> None:
        """Begins a connection."""
        self.awaits(request)
        super().process_request(request, client_address)

    def awaits(self, connection: sockets.socket) -> None:
        """A connection waits for a request from now on. Of too many the oldest one is ended."""
        with self._lock:
            self._asking.pop(connection, None)
            self._asking[connection] = time.monotonic()
            oldest = next(iter(self._asking)) if len(self._asking) > CONNECTIONS else None
        if oldest:
            self._break(oldest)

    def awaits_no_more(self, connection: sockets.socket) -> None:
        """A connection has become a page's socket, or has ended."""
        with self._lock:
            self._asking.pop(connection, None)

    def service_actions(self) -> None:
        """Ends, twice a second, the connections that have taken too long."""
        with self._lock:
            late = [one for one, since in self._asking.items() if time.monotonic() - since > REQUEST_SECONDS]
        for one in late:
            self._break(one)

    def _break(self, connection: sockets.socket) -> None:
        """Ends a connection: its thread sees that."""
        self.awaits_no_more(connection)
        try:
            connection.shutdown(sockets.SHUT_RDWR)
        except OSError:
            pass  # It has ended already.

    def shutdown_request(self, request: Any) -> None:
        """A connection has ended."""
        self.awaits_no_more(request)
        super().shutdown_request(request)

    def handle_error(self, request: object, client_address: object) -> None:
        """A browser that goes away in the midst of an answer is nothing to tell of."""
        if not isinstance(sys.exc_info()[1], (OSError, ValueError)):
            super().handle_error(request, client_address)


class _Request(BaseHTTPRequestHandler):
    """One connection."""

    protocol_version = "HTTP/1.1"
    server: Pages
    disable_nagle_algorithm = True

    def handle_one_request(self) -> None:
        """Takes a request, in time."""
        self.server.awaits(self.connection)
        super().handle_one_request()

    def do_GET(self) -> None:  # noqa: N802
        """Answers a file, or becomes a socket."""
        path = self.path.partition("?")[0]
        if not self.server.is_own(self.headers.get("Host", "")):
            self._fail(HTTPStatus.FORBIDDEN)
        elif path == "/bridge":
            self._connect()
        elif path.startswith("/theories/"):
            self._answer(self.server.library, path[len("/theories/"):])
        else:
            self._answer(FOLDER, path[1:] or "index.html")

    def log_message(self, format: str, *args: object) -> None:
        """Says nothing of what went well."""

    def _answer(self, folder: Optional[Path], name: str) -> None:
        """A file of a folder, of the kinds that are served."""
        kind = KINDS.get(Path(name).suffix)
        if folder is None or kind is None or Path(name).name != name or not (folder / name).is_file():
            self._fail(HTTPStatus.NOT_FOUND)
            return
        data = (folder / name).read_bytes()
        self.send_response(HTTPStatus.OK)
        for key, value in (("Content-Type", kind), ("Content-Length", str(len(data))), ("Cache-Control", "no-cache"),
                           ("Content-Security-Policy", POLICY % ("ws://%s" % self.headers["Host"])), ("X-Content-Type-Options", "nosniff")):
            self.send_header(key, value)
        self.end_headers()
        self.wfile.write(data)

    def _fail(self, status: HTTPStatus) -> None:
        self.send_response(status)
        self.send_header("Content-Length", "0")
        self.end_headers()

    def _connect(self) -> None:
        """Makes a socket of the connection, if it is this page that asks."""
        self.close_connection = True
        key, origin = self.headers.get("Sec-WebSocket-Key"), self.headers.get("Origin", "")
        if not key or not origin.startswith("http://") or not self.server.is_own(origin[len("http://"):]):
            self._fail(HTTPStatus.FORBIDDEN)
            return
        has_room = self.server.room.acquire(blocking=False)
        try:
            self._talk(key, has_room)
        finally:
            if has_room:
                self.server.room.release()

    def _talk(self, key: str, has_room: bool) -> None:
        """Answers a handshake, and passes on until the page's end."""
        self.send_response(HTTPStatus.SWITCHING_PROTOCOLS)
        for name, value in (("Upgrade", "websocket"), ("Connection", "Upgrade"), ("Sec-WebSocket-Accept", accept_key(key))):
            self.send_header(name, value)
        self.end_headers()
        self.wfile.flush()
        self.server.awaits_no_more(self.connection)
        self.connection.settimeout(SILENT_SECONDS)
        socket = WebSocket(self.rfile, self.wfile)
        if has_room:
            relay.relay(socket, self.server.bridge)
        else:
            socket.close(relay.NO_ROOM, "too many pages are open")


def add_words(words: argparse.ArgumentParser) -> None:
    """The command line's words."""
    words.add_argument("--server", metavar="PROGRAM", help="the program hol_serve")
    words.add_argument("--port", type=int, default=PORT, help="the port (%d; 0: any that is free)" % PORT)
    words.add_argument("--no-browser", action="store_true", help="only tell where the page is")
    words.add_argument("--library", metavar="DIR", help="the theories that a page may import (those of theories/)")
    words.add_argument("--seconds", type=int, default=20, help="how long one command may take (20)")


def _bridge(given: argparse.Namespace, program: str, library: Optional[Path]) -> List[str]:
    """The words that start a bridge for a page."""
    words = [*carried.starter(), "lsp", "--held", "--server", program, "--seconds", str(given.seconds)]
    return words + (["--library", str(library)] if library else [])


def main(given: argparse.Namespace) -> int:
    """Serves until it is interrupted. Status 2 where there is nothing to serve."""
    if not 0 <= given.port <= MOST_PORT:
        return _complain("--port takes 0 to %d" % MOST_PORT)
    if not (FOLDER / "index.html").is_file():
        return _complain("the folder page/ is missing beside clients/")
    library = Path(given.library).resolve() if given.library else LIBRARY if LIBRARY.is_dir() else None
    if given.library and not library.is_dir():
        return _complain("--library: there is no folder %s" % given.library)
    try:
        program = server.find(given.server)
        server.say_which(program, given.server)
        server.probe(program)
        pages = Pages(given.port, _bridge(given, program[0], library), library)
    except server.NoServer as error:
        return _complain(str(error))
    except OSError as error:
        return _complain("port %d can't be used: %s; another one is taken by --port" % (given.port, error.strerror or error))
    print("the page is at %s (end it by Ctrl-C)" % pages.address, flush=True)
    if not given.no_browser:
        threading.Thread(target=webbrowser.open, args=(pages.address,), daemon=True).start()
    with pages:
        pages.serve_forever()
    return 0


def _complain(words: str) -> int:
    print("holls: %s" % words, file=sys.stderr)
    return 2
