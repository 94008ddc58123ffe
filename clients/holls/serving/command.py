"""`holls serve`: the page for a class, and a course's exercises."""

from __future__ import annotations

import argparse
import asyncio
import base64
import functools
import html
import importlib
import io
import os
import secrets
import socket
import sys
import zlib
from pathlib import Path
from typing import List, Optional
from urllib.parse import urlsplit

from holls import carried, server
from holls.course import layout
from holls.course.layout import BadCourse, Course
from holls.files import File
from holls.lsp import bridge
from holls.say import complain
from holls.serving.keeping import Keeping
from holls.serving.progress import Exercises, Watched
from holls.serving.watching import Class
from holls.serving.wires import BACKLOG

try:
    from aiohttp import web
except ImportError:
    web = None

ADDRESS, PORT = "127.0.0.1", 8765
LINK_BYTES = 400_000
"""The page takes no more from a link."""

LESSON = "g N `!x:num. x = x /\\ T`;;\ne GEN_TAC;;\ne REWRITE_TAC [];;\nqed;;\n"
"""A text as pages have them, for a rehearsal."""

_PORTS = {"http": ":80", "https": ":443"}
"""What no browser writes behind a host's name."""
_NUMBERS = ("sessions", "each", "seconds", "memory", "processor", "idle", "rate", "doze", "files", "share")


def add_words(words: argparse.ArgumentParser) -> None:
    """The command line's words."""
    words.add_argument("folder", nargs="?", metavar="COURSE", help="a course's folder (docs/COURSES.md): its exercises are at /course")
    words.add_argument("--server", metavar="PROGRAM", help="the program hol_serve")
    words.add_argument("--address", default=ADDRESS, help="where it listens (%s: to this machine alone, as a proxy wants it)" % ADDRESS)
    words.add_argument("--port", type=int, default=PORT, help="the port (%d; 0: any that is free)" % PORT)
    words.add_argument("--origin", action="append", default=[], metavar="URL",
                       help="an address under which browsers reach it, as https://hol.example.edu; may be given again")
    words.add_argument("--behind-proxy", action="store_true", help="who asks is told by the proxy, in X-Forwarded-For")
    words.add_argument("--library", metavar="DIR", help="the theories that a page may import (those of theories/)")
    words.add_argument("--sessions", type=int, default=220, help="so many pages are open at once at most (220)")
    words.add_argument("--each", type=int, default=220, help="so many of one address (220)")
    words.add_argument("--seconds", type=int, default=20, help="how long one command may take (20)")
    words.add_argument("--memory", type=int, default=1000, metavar="MEGABYTES", help="how much memory a page's programs may have (1000)")
    words.add_argument("--processor", type=int, default=1800, metavar="SECONDS", help="how long a page's programs may compute in all (1800)")
    words.add_argument("--idle", type=int, default=60, metavar="MINUTES", help="a page in which nothing is done for so long is let go (60)")
    words.add_argument("--doze", type=int, default=300, metavar="SECONDS",
                       help="where nothing is done for so long, the program is ended; the next key starts it again (300)")
    words.add_argument("--share", type=int, default=10, metavar="HUNDREDTHS",
                       help="so much of a processor a page may have in the long run, before it comes after the others (10)")
    words.add_argument("--files", type=int, default=100, help="so many files may be open in a page (100)")
    words.add_argument("--teacher-key", metavar="KEY", help="with a course: the word in the address of the teacher's page (one that is made anew each time)")
    words.add_argument("--keep", metavar="FOLDER", help="with a course: keep what students write there, as FOLDER/STUDENT/FILE.hol, which holls grade reads "
                       "(nothing of it is kept)")
    words.add_argument("--ahead", type=int, default=4, help="with a course: so many programs wait that have run what its exercises import (4)")
    words.add_argument("--quiet", action="store_true", help="write no line on standard error for each page that begins or ends")
    words.add_argument("--rate", type=int, default=200, help="so many requests a second from one address in the long run (200)")


def main(given: argparse.Namespace) -> int:
    """Serves until it is ended. Status 2 where there is nothing to serve."""
    if web is None:
        return _complain("holls serve needs aiohttp, which %s doesn't have: `%s -m pip install aiohttp`, or `apt-get install python3-aiohttp` for Debian's own "
                         "/usr/bin/python3 (`holls page` serves the page to this machine without it)" % (sys.executable, sys.executable))
    if not hasattr(os, "fork"):
        return _complain("holls serve needs a system that can fork, as Linux does")
    wrong = next((name for name in _NUMBERS if getattr(given, name) < 1), None)
    if wrong or not 0 <= given.port < 1 << 16 or given.ahead < 0:
        return _complain("--%s takes a number from 1" % wrong if wrong else "--port takes 0 to 65535, --ahead a number from 0")
    if given.keep and not given.folder:
        return _complain("--keep FOLDER keeps what students write in a course's exercises: name the course")
    try:
        return _serve(given)
    except (BadCourse, server.NoServer) as error:
        return _complain(str(error))


def _complain(words: str) -> int:
    complain(words)
    return 2


def _serve(given: argparse.Namespace) -> int:
    from holls.serving import nursery, service  # It needs aiohttp.

    page = carried.folder("page")
    if not (page / "index.html").is_file():
        return _complain("the folder page/ is missing beside clients/")
    bad = next((origin for origin in given.origin if _origin(origin) is None), None)
    if bad is not None:
        return _complain("--origin %s: it is an address as https://hol.example.edu, without a path" % bad)
    library = Path(given.library).resolve() if given.library else carried.folder("theories")
    course = layout.read(given.folder) if given.folder else None
    before = [Path(course.theories).resolve()] if course and os.path.isdir(course.theories) else []
    os.environ[server.MEMORY_VARIABLE] = str(given.memory)
    words = server.find(given.server)
    server.say_which(words, given.server)
    probed = bridge.Probed(bridge.Program(words, server.probe(words)), None)
    limits = bridge.Limits(True, str(library), bridge.HELD_MESSAGES, service.MESSAGE_BYTES, bridge.HELD_LAST_SECONDS, tuple(map(str, before)),
                           float(given.doze), given.files)
    names = {one.name: tuple(each.name for each in one.exercises) for one in course.files} if course else {}
    made = functools.partial(_bear, probed, given.seconds, limits, names, _imports(course), bool(given.keep))
    _rehearse(given.seconds, limits, course)
    born = nursery.Nursery(made, given.processor)
    try:
        listening = socket.create_server((given.address, given.port), backlog=BACKLOG)
    except OSError as error:
        return _complain("port %d of %s can't be used: %s; another one is taken by --port" % (given.port, given.address, error.strerror or error))
    port = listening.getsockname()[1]
    own = ["http://%s%s" % (name, "" if port == 80 else ":%d" % port) for name in dict.fromkeys((given.address, "localhost"))]
    settings = service.Settings(
        page, (*before, library), tuple(dict.fromkeys([*own, *map(_origin, given.origin)])), given.sessions, given.each, given.idle * 60.0,
        given.processor, given.memory, given.rate, given.behind_proxy,
        functools.partial(exercises_page, course) if course else None, Class(course.title, names) if course else None,
        given.teacher_key or secrets.token_urlsafe(16), given.ahead if course else 0, Keeping(given.keep, names) if given.keep else None,
        given.quiet, given.share / 100)
    _raise_files()
    print("the page is at %s/%s (end it by Ctrl-C)" % (own[0], "course" if course else ""), flush=True)
    if course:
        print("how far all are, for the teacher alone: %s/teacher/%s" % (settings.origins[-1] if given.origin else own[0], settings.key), flush=True)
    asyncio.run(service.Service(settings, born).run(listening))
    return 0


def _rehearse(seconds: int, limits: bridge.Limits, course: Optional[Course]) -> None:
    """Does once what each page has its bridge do, so that what that loads is shared by all; and loads what a package of its own would."""
    importlib.import_module("holls.packages.expanding")
    texts = {"lesson": LESSON, **{one.name: one.text for one in course.files}} if course else {"lesson": LESSON}
    where = {"textDocument": {"uri": "hol:/lesson.hol"}, "position": {"line": 2, "character": 6}}
    asked = ["proof/goals", "textDocument/completion", "textDocument/hover", "textDocument/documentSymbol", "textDocument/codeLens", "hol/manual"]
    messages = [{"id": 0, "method": "initialize", "params": {"capabilities": {}, "initializationOptions": {"refused": True}}}]
    messages += [{"method": "textDocument/didOpen", "params": {"textDocument": {"uri": "hol:/%s.hol" % name, "version": 0, "text": text}}}
                 for name, text in texts.items()]
    messages += [{"id": number, "method": method, "params": where} for number, method in enumerate(asked, 1)]
    Watched(io.BytesIO(), None, seconds, limits).rehearse(messages)


def _imports(course: Optional[Course]) -> List[str]:
    """The theories that a course's exercises import."""
    found: List[str] = []
    for given in course.files if course else ():
        file = File(given.name)
        file.take(given.text)
        found += file.imports
    return list(dict.fromkeys(found))


def _origin(address: str) -> Optional[str]:
    """An address as browsers name it; None where it is none."""
    try:
        parts = urlsplit(address.strip().rstrip("/"))
    except ValueError:
        return None
    is_one = parts.scheme in _PORTS and parts.netloc and "@" not in parts.netloc and not (parts.path or parts.query or parts.fragment)
    host = parts.netloc[:-len(_PORTS[parts.scheme])] if is_one and parts.netloc.endswith(_PORTS[parts.scheme]) else parts.netloc
    return "%s://%s" % (parts.scheme, host.lower()) if is_one else None


def _bear(probed: bridge.Probed, seconds: int, limits: bridge.Limits, names: Exercises, imports: List[str], tells_texts: bool, pair: socket.socket,
          is_ahead: bool) -> None:
    """Runs a bridge, in a process of its own; one that is made ahead runs what the exercises import at once."""
    made = Watched(pair.makefile("wb"), None, seconds, limits)
    made.probed, made.exercises, made.tells_texts = probed, names, tells_texts
    if is_ahead:
        made.stand(imports)
    bridge.serve(pair.makefile("rb"), made)


def _raise_files() -> None:
    """Has the process have as many files open as it may: each session has three."""
    import resource

    hard = resource.getrlimit(resource.RLIMIT_NOFILE)[1]
    resource.setrlimit(resource.RLIMIT_NOFILE, (hard, hard))


def exercises_page(course: Course, student: str) -> str:
    """The page with a course's exercises for a student of a name: a link for each file, which opens it in the reader's page. It has no script, and no text
    is taken for markup."""
    items = "".join("<li><a href=\"%s\">%s</a>: %s</li>\n" % (
        html.escape("./" + link(given.name, given.text)), html.escape(given.name),
        html.escape(", ".join(one.name for one in given.exercises))) for given in course.files)
    title = html.escape(course.title)
    return ("<!DOCTYPE html>\n<html lang=\"en\"><head><meta charset=\"utf-8\"><title>%s</title><link rel=\"stylesheet\" href=\"style.css\">"
            "<meta name=\"viewport\" content=\"width=device-width\"></head><body class=\"course\"><main><h1>%s</h1>\n"
            "<form action=\"course\" method=\"get\"><label>Your name, which your teacher sees: <input name=\"name\" maxlength=\"60\" value=\"%s\"></label> "
            "<button>That's me</button></form>\n<ol>\n%s</ol>\n"
            "<p>A link opens the exercise in your browser, which keeps what you write. \"Save\" makes the file that you hand in.</p>"
            "</main></body></html>\n") % (title, title, html.escape(student), items)


def link(name: str, text: str) -> str:
    """The part of a link that opens a theory in the page, as page/store.js reads it. One that is too long for a link opens nothing."""
    squeezed = zlib.compressobj(9, zlib.DEFLATED, -15)
    data = squeezed.compress(text.encode("utf-8")[:LINK_BYTES]) + squeezed.flush()
    return "#theory=%s.%s" % (name, base64.urlsafe_b64encode(data).decode("ascii").rstrip("="))
