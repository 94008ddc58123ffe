#!/usr/bin/env python3
"""All loads of a class server, one after the other, and a table of what was measured beside what is wanted.

    python3 bench/loads.py [--minutes M] [--sessions N] [--idle N] [--only LOAD]..

Each load starts `holls serve` anew, with the program that it finds (a Python that has aiohttp runs it: this one, else /usr/bin/python3), and load.py's pages
beside it, which take their part of this machine's processors: on a quiet machine, then, else the times are those of what else it does.

  class    N pages type a key every two seconds, for a minute
  hostile  the same for a minute, in whose second half four pages mean ill
  idle     so many pages begin and do nothing; their programs go once they doze
  soak     a fifth as many pages come, type and go for M minutes: what the server has in the last quarter beside the second one, and when all have left
  proxy    HAProxy in front of two servers, of which one is killed while pages type: how soon all of them go on, with what they had
"""

import argparse
import http.client
import os
import pathlib
import resource
import shutil
import signal
import socket
import statistics
import subprocess
import sys
import tempfile
import threading
import time

sys.path.insert(0, str(pathlib.Path(__file__).resolve().parent))
import load  # noqa: E402

ROOT = pathlib.Path(__file__).resolve().parent.parent
HOLLS = ROOT / "clients" / "bin" / "holls"
KEYS_SECONDS, PROXY_SECONDS, DOZE = 60, 40, 10
HOSTILE, PROXIED, LOST = 4, 40, 10
MEGABYTES = 8 * 1024
STAY = 20  # So many seconds a page of the soak is there.
PAGE_TIME, KEY_TIME = 80, 10
"""What a page that begins and a key may take of the processors, in milliseconds: by the latter 200 pages that type a key every two seconds keep one processor
busy. Other work on the machine changes these little; how long is waited for a processor is told beside them."""
SECONDS = 60
FRONT = """
defaults
  mode http
  timeout connect 5s
  timeout client 120s
  timeout server 120s
  timeout tunnel 1h
frontend hol
  bind 127.0.0.1:%d
  default_backend class
backend class
  balance roundrobin
  option httpchk GET /health HTTP/1.1
  http-check send hdr Host 127.0.0.1:%d
  default-server inter 500 fall 2
"""


def python():
    """A Python that has aiohttp."""
    for name in (sys.executable, "/usr/bin/python3"):
        if shutil.which(name) and not subprocess.run([name, "-c", "import aiohttp"], capture_output=True).returncode:
            return name
    raise SystemExit("loads: no Python here has aiohttp: apt-get install python3-aiohttp")


def free_port():
    with socket.socket() as one:
        one.bind(("127.0.0.1", 0))
        return one.getsockname()[1]


class Server:
    """`holls serve`, until the `with` ends."""

    def __init__(self, *words):
        command = [python(), str(HOLLS), "serve", "--port", "0", "--quiet", "--rate", "10000", *words]
        self.process = subprocess.Popen(command, stdout=subprocess.PIPE, stderr=subprocess.DEVNULL, start_new_session=True)
        self.address = "http://" + self.process.stdout.readline().decode().split("http://")[1].split("/")[0]

    def __enter__(self):
        return self

    def __exit__(self, *_):
        self.kill(signal.SIGTERM)
        try:
            self.process.wait(SECONDS)
        except subprocess.TimeoutExpired:
            self.kill(signal.SIGKILL)

    def kill(self, by):
        """Ends the server; killed, with all that it has started."""
        if self.process.poll() is None:
            (os.killpg if by == signal.SIGKILL else os.kill)(self.process.pid, by)


def given_words(address, *words):
    """load.py's own words."""
    given = load.arguments([address, *map(str, words)])
    given.text = None
    return given


def at(values, part):
    """What so large a part of some seconds stays below, in milliseconds."""
    values = sorted(values)
    return 1000 * values[min(len(values) - 1, int(len(values) * part))] if values else float("inf")


def middle(values):
    return 1000 * statistics.median(values) if values else float("inf")


def failed(measured):
    """How many pages ended; why is printed."""
    for failure in sorted(set(measured.failures)):
        print("%d pages ended: %s" % (measured.failures.count(failure), failure), flush=True)
    return "pages that ended", len(measured.failures), 0


def typing(pages, hostile):
    """Pages that type: rows of what was measured, its figure and the most that is wanted."""
    with Server("--sessions", str(2 * pages + 20), "--each", str(2 * pages + 20)) as server:
        watch = load.Watch(server.process.pid)
        measured = Timed(given_words(server.address, "--sessions", pages, "--seconds", KEYS_SECONDS, "--hostile", hostile), watch)
        measured.run()
    yield failed(measured)
    if hostile:
        yield "a key beside hostile pages, against one without, %", 100 * middle(measured.disturbed) / max(1, middle(measured.keys)), 100 + 10 * hostile
        return
    yield "a page begins, median ms", middle(measured.begun), load.BEGINS
    yield "a key to its goals, median ms", middle(measured.keys), load.MEDIAN
    yield "a key to its goals, 99 % ms", at(measured.keys, 0.99), load.LATEST
    (page, page_waits), (key, key_waits) = measured.a_page(), measured.a_key()
    yield "processor ms of a page that begins", page, PAGE_TIME
    yield "processor ms of a key", key, KEY_TIME
    print("for a processor waited, of the server's: a page that begins %.0f ms, a key %.0f ms" % (page_waits, key_waits), flush=True)
    yield "keys a page and minute", -len(measured.keys) * 60 / KEYS_SECONDS / pages, -25


def idle(pages):
    with Server("--sessions", str(pages + 10), "--each", str(pages + 10), "--doze", str(DOZE)) as server:
        watch, measured = load.Watch(server.process.pid), load.Class(given_words(server.address, "--sessions", pages, "--idle"))
        before = watch.show("before")
        measured.rest()
        watch.show("%d pages" % len(measured.idle))
        time.sleep(3 * DOZE)
        full = watch.show("%d pages that doze" % len(measured.idle))
        measured.leave()
        yield failed(measured)
        yield from given_back(watch, before)
    yield "pages", -len(measured.idle), -pages
    yield "MB of %d pages" % pages, full[2] - before[2], MEGABYTES


def soak(pages, minutes):
    with Server("--sessions", str(pages + 10), "--each", str(10 * pages)) as server:  # As many as come: one leaves, and another one begins.
        watch = load.Watch(server.process.pid)
        measured = load.Class(given_words(server.address, "--sessions", pages, "--seconds", 60 * minutes, "--stay", STAY))
        before = watch.show("before")
        threading.Thread(target=watch.each_minute, daemon=True).start()
        measured.run()
        watch.over.set()
        yield failed(measured)
        yield "pages that came", -len(measured.begun), -round(pages * minutes * 60 / STAY / 2)
        yield from grown(watch.minutes, pages)
        yield from given_back(watch, before)


def grown(minutes, pages):
    """What the server has more in the last quarter of some minutes than in the second one, in which all is as it goes on."""
    quarter = len(minutes) // 4
    if quarter:
        early, late = (list(map(statistics.median, zip(*some))) for some in (minutes[quarter:2 * quarter], minutes[-quarter:]))
        for at, (what, most) in enumerate((("processes", 4), ("files", 40), ("MB in all", pages), ("MB of the server", 2))):
            yield what + " more at the end of the soak", max(0, late[at] - early[at]), most


def given_back(watch, before):
    """What the server has when all have left, beside what it had before."""
    time.sleep(10)  # So long bridges may take to end.
    after = watch.show("when all have left")
    for at, (what, most) in enumerate((("processes", 0), ("files", 2), ("MB in all", 30), ("MB of the server", 30))):
        yield what + " more than before", max(0, after[at] - before[at]), most


class Timed(load.Class):
    """Pages whose beginnings and keys are set beside the processor time that the server, its bridges and its programs have for them."""

    def __init__(self, given, watch):
        super().__init__(given)
        self.watch, self.seconds = watch, [watch.seconds()]
        self.ready = threading.Barrier(given.sessions, self.note, timeout=600)

    def note(self):
        """Once all pages have begun, and shortly before the end."""
        self.seconds.append(self.watch.seconds())
        if not self.keys:
            threading.Timer(self.given.seconds - 1, self.note).start()
        self.typed = len(self.keys)

    def a_page(self):
        """Milliseconds for which a page has a processor until its goals are there, and for which it waits for one."""
        return [1000 * (after - before) / self.given.sessions for before, after in zip(*self.seconds[:2])]

    def a_key(self):
        """Those of a key."""
        return [1000 * (after - before) / max(1, self.typed) for before, after in zip(*self.seconds[1:])]


class Returning(load.Class):
    """Pages that come again, as a browser does, where their server goes: with the text that they had."""

    def __init__(self, given):
        super().__init__(given)
        self.returned = []

    def session(self, number):
        text, page = load.LESSON.replace("%d", str(number)), None
        end, is_typed, lost = time.monotonic() + self.given.seconds, False, None
        while time.monotonic() < end or lost:
            try:
                if page is None:
                    page = self.page()
                    page.connection.settimeout(5)
                    page.open(text.replace("DISCH", "XDISCH", 1) if is_typed else text)
                    page.goals()
                if lost:
                    self.returned.append(time.monotonic() - lost)
                    lost = None
                self.keys.append(page.key("" if is_typed else "X", 2))
                is_typed = not is_typed
                time.sleep(1)
            except (OSError, load.Closed, ValueError) as error:
                page, lost = None, lost or time.monotonic()
                if time.monotonic() - lost > SECONDS:
                    self.failures.append(str(error) or type(error).__name__)
                    return
                time.sleep(0.2)


def proxy(pages):
    if not shutil.which("haproxy"):
        raise SystemExit("loads: haproxy isn't installed")
    port = free_port()
    origin = "http://127.0.0.1:%d" % port
    words = ("--origin", origin, "--behind-proxy", "--each", str(2 * pages), "--sessions", str(2 * pages))
    with tempfile.TemporaryDirectory() as folder, Server(*words) as first, Server(*words) as second:
        file = pathlib.Path(folder) / "haproxy.cfg"
        file.write_text(FRONT % (port, port) + "".join("  server s%d %s check\n" % (at, one.address[7:]) for at, one in enumerate((first, second))))
        with subprocess.Popen(["haproxy", "-db", "-f", str(file)], stdout=subprocess.DEVNULL, stderr=subprocess.DEVNULL) as front:
            try:
                waits_for(port)
                measured = Returning(given_words(origin, "--sessions", pages, "--seconds", PROXY_SECONDS))
                killer = threading.Timer(PROXY_SECONDS / 2, second.kill, [signal.SIGKILL])
                killer.start()
                measured.run()
                killer.cancel()
            finally:
                front.terminate()
    yield failed(measured)
    yield "pages whose server was lost", -len(measured.returned), -1
    yield "seconds until the last of them goes on", max(measured.returned, default=float("inf")), LOST


def waits_for(port):
    """Until the proxy has found its servers."""
    end = time.monotonic() + SECONDS
    while time.monotonic() < end:
        try:
            connection = http.client.HTTPConnection("127.0.0.1", port, timeout=5)
            connection.request("GET", "/health")
            if connection.getresponse().status == 200:
                return
        except OSError:
            pass
        time.sleep(0.2)


def main():
    words = argparse.ArgumentParser(description=__doc__, formatter_class=argparse.RawDescriptionHelpFormatter)
    words.add_argument("--minutes", type=float, default=8, metavar="M", help="how long the soak is (8)")
    words.add_argument("--sessions", type=int, default=200, metavar="N", help="pages that type (200)")
    words.add_argument("--idle", type=int, default=1000, metavar="N", help="pages that do nothing (1000)")
    words.add_argument("--only", action="append", metavar="LOAD", choices=("class", "hostile", "idle", "soak", "proxy"), help="this load alone; may be given again")
    given = words.parse_args()
    loads = {"class": lambda: typing(given.sessions, 0), "hostile": lambda: typing(given.sessions, HOSTILE), "idle": lambda: idle(given.idle),
             "soak": lambda: soak(max(1, given.sessions // 5), given.minutes), "proxy": lambda: proxy(min(PROXIED, given.sessions))}
    rows, most = [], resource.getrlimit(resource.RLIMIT_NOFILE)[1]
    resource.setrlimit(resource.RLIMIT_NOFILE, (most, most))
    for name in given.only or loads:
        begun = time.monotonic()
        print("%s .." % name, flush=True)
        rows += [(name, *row) for row in loads[name]()]
        print("%s: %.0f s" % (name, time.monotonic() - begun), flush=True)
    print("\n| load | measured | is | wanted |\n|---|---|---:|---:|")
    for name, what, figure, wanted in rows:
        print("| %s | %s | %.0f | %s %d |%s" % (name, what, abs(figure), "at most" if wanted >= 0 else "at least", abs(wanted), "" if figure <= wanted else " MISSED"))
    return 1 if any(figure > wanted for _, _, figure, wanted in rows) else 0


if __name__ == "__main__":
    sys.exit(main())
