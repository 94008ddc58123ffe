#!/usr/bin/env python3
"""A class over `holls serve`: so many pages that each type a key again and again, and how long it takes until their goals are there.

    clients/bin/holls serve --port 8765 --rate 10000 --quiet        in another shell, or on another machine
    python3 bench/load.py http://127.0.0.1:8765 --sessions 20 --seconds 10

Each page opens its text in a session of its own, waits until all is known, and then puts a letter into a step and takes it out again, every --every
seconds: from the message until the answer with the goals behind that step, a key's time is measured. `--origin` is what the server's has, where it
isn't the address. The sessions are processes' threads here: where they wait for the processor of this machine, their times have that too.

  --hostile N    in the second half of the time so many pages do what costs most: floods of edits, steps that never end, answers that aren't read, frames with
                 nothing in them. Shown is by how much that slows the others
  --idle         the pages do nothing once they have begun
  --stay S       each page leaves after some S seconds, and another one comes in its place
  --pid PID      the server runs here as this process: its programs, files and memory are shown, before, each minute, at the end and once all pages have left
  --limits       status 1 where a limit is missed: MEDIAN, LATEST and BEGINS, in milliseconds; SLOWED; with --pid that the server goes back to what it had, and that
                 a page has at most MEGABYTES
"""

import argparse
import itertools
import json
import os
import pathlib
import random
import socket
import ssl
import statistics
import sys
import threading
import time
from urllib.parse import urlsplit

sys.path.insert(0, str(pathlib.Path(__file__).resolve().parent.parent / "clients"))
from holls.websocket import Closed, WebSocket, new_key  # noqa: E402

LESSON = "g BOTH%d `p ==> q ==> q /\\ p`;;\ne DISCH_TAC THEN DISCH_TAC;;\ne CONJ_TAC;;\ne ACCEPT_TAC (ASSUME `q:bool`);;\ne ACCEPT_TAC (ASSUME `p:bool`);;\nqed;;\n"
ENDLESS = "new_axiom A%d `!x:A. f x = f (f x)`;;\ng N `f (x:A) = y`;;\ne REWRITE_TAC [A%d];;\n"
TYPED = 1  # The line in which is typed, from 0.
URI = "hol:/lesson.hol"
MEDIAN, LATEST, BEGINS = 50, 500, 200
SLOWED, MEGABYTES = 0.1, 8
BEAT = 4  # Each so many seconds a page that does nothing shows that it is there, as a browser does by itself.
AT_ONCE = 16  # So many pages begin at the same time where they do nothing afterwards.


class Page:
    """A session: requests with their answers, one at a time."""

    def __init__(self, address, origin):
        parts = urlsplit(address)
        connection = socket.create_connection((parts.hostname, parts.port or (443 if parts.scheme == "https" else 80)), timeout=120)
        if parts.scheme == "https":
            connection = ssl.create_default_context().wrap_socket(connection, server_hostname=parts.hostname)
        reader, writer = connection.makefile("rb"), connection.makefile("wb")
        writer.write(("GET %s/bridge HTTP/1.1\r\nHost: %s\r\nUpgrade: websocket\r\nConnection: Upgrade\r\nOrigin: %s\r\nSec-WebSocket-Version: 13\r\n"
                      "Sec-WebSocket-Key: %s\r\n\r\n" % (parts.path.rstrip("/"), urlsplit(origin).netloc, origin, new_key())).encode())
        writer.flush()
        status = reader.readline()
        if b" 101 " not in status:
            raise OSError("the server answers %s" % status.decode("latin-1").strip())
        while reader.readline().strip():
            pass
        self.connection, self.socket, self.number, self.version = connection, WebSocket(reader, writer, True), 0, 0

    def tell(self, method, **params):
        self.socket.send(json.dumps({"jsonrpc": "2.0", "method": method, "params": params}).encode())

    def ask(self, method, **params):
        self.number += 1
        self.socket.send(json.dumps({"jsonrpc": "2.0", "id": self.number, "method": method, "params": params}).encode())
        while True:
            message = json.loads(self.socket.receive())
            if message.get("id") == self.number and "method" not in message:
                return message.get("result")

    def open(self, text):
        self.ask("initialize", capabilities={}, initializationOptions={"refused": True})
        self.tell("initialized")
        self.tell("textDocument/didOpen", textDocument={"uri": URI, "languageId": "hol", "version": 0, "text": text})

    def change(self, **change):
        self.version += 1
        self.tell("textDocument/didChange", textDocument={"uri": URI, "version": self.version}, contentChanges=[change])

    def key(self, text, place):
        """Types a text at a place, or takes a letter out there. Answers the seconds until the goals behind the step are there."""
        begun = time.monotonic()
        start, end = {"line": TYPED, "character": place}, {"line": TYPED, "character": place + (not text)}
        self.change(range={"start": start, "end": end}, text=text)
        self.goals()
        return time.monotonic() - begun

    def goals(self):
        return self.ask("proof/goals", textDocument={"uri": URI, "version": self.version}, position={"line": TYPED, "character": 4})

    def leave(self):
        self.socket.close()
        self.connection.close()


class Class:
    """The pages, and what they have measured: the seconds in which they began, and those of keys, in peace and beside hostile pages."""

    def __init__(self, given):
        self.given, self.begun, self.keys, self.disturbed, self.failures = given, [], [], [], []
        self.ready = threading.Barrier(given.sessions, timeout=600)
        self.over, self.is_disturbed, self.end = threading.Event(), False, None
        self.idle, self.numbers = [], itertools.count()

    def page(self):
        return Page(self.given.address, self.given.origin or self.given.address.rstrip("/"))

    def run(self):
        threads = [threading.Thread(target=self.session, args=(number,)) for number in range(self.given.sessions)]
        threads += [threading.Thread(target=self.hostile, args=(number,)) for number in range(self.given.hostile)]
        for thread in threads:
            thread.start()
        for thread in threads:
            thread.join()

    def begin(self):
        """A page that has begun: its goals are there."""
        since = time.monotonic()
        page = self.page()
        page.open((self.given.text or LESSON).replace("%d", str(next(self.numbers))))
        goals = page.goals()
        if not self.given.text and "p" not in json.dumps(goals):
            raise OSError("no goals came")
        self.begun.append(time.monotonic() - since)
        return page

    def session(self, number):
        try:
            time.sleep(random.random() * self.given.within)
            page = self.begin()
            if self.ready.wait() == 0:
                self.end = time.monotonic() + self.given.seconds
            while self.end is None:
                time.sleep(0.01)
            while time.monotonic() < self.end:
                leaves = time.monotonic() + self.given.stay * random.uniform(0.5, 1.5) if self.given.stay else self.end
                self.type(page, min(leaves, self.end))
                page.leave()
                page = self.begin() if time.monotonic() < self.end else page
        except (OSError, Closed, ValueError, threading.BrokenBarrierError) as error:
            self.failures.append(str(error) or type(error).__name__)
            self.ready.abort()

    def type(self, page, end):
        """Types and takes back, from a random moment on."""
        time.sleep(random.random() * self.given.every)
        is_typed = False
        while time.monotonic() < end:
            kept = self.disturbed if self.is_disturbed else self.keys
            took = page.key("" if is_typed else "X", 2)
            is_typed = not is_typed
            kept.append(took)
            time.sleep(max(0.0, self.given.every - took))

    def hostile(self, number):
        """In the second half does what costs most, in a session anew wherever it is ended."""
        while self.end is None or time.monotonic() < self.end - self.given.seconds / 2:
            time.sleep(0.1)
            if self.failures:
                return
        self.is_disturbed = True
        while time.monotonic() < self.end:
            try:
                page = self.page()
                page.connection.settimeout(1)
                (self.flood, self.compute, self.unread, self.empty)[number % 4](page)
            except (OSError, Closed, ValueError):
                time.sleep(0.1)

    def flood(self, page):
        """Edits as fast as they are taken."""
        page.open("")
        while time.monotonic() < self.end:
            page.change(text="g F%d `x = x`;;\n" % page.version * 2000)

    def compute(self, page):
        """Steps that run as long as they may."""
        page.open("")
        while time.monotonic() < self.end:
            page.change(text=ENDLESS.replace("%d", str(page.version)))
            time.sleep(0.2)

    def unread(self, page):
        """Questions whose answers aren't read."""
        page.open("")
        while time.monotonic() < self.end:
            page.socket.send(b'{"jsonrpc":"2.0","id":1,"method":"hol/manual","params":{}}')

    def empty(self, page):
        """Frames that hold nothing."""
        page.open("")
        while time.monotonic() < self.end:
            page.connection.sendall(b"\x89\x80\0\0\0\0" * 1000)

    def rest(self):
        """Has all pages begin, so many at once, and do nothing."""
        def some():
            while next(counted) < self.given.sessions:
                try:
                    self.idle.append(self.begin())
                except (OSError, Closed, ValueError) as error:
                    self.failures.append(str(error) or type(error).__name__)
        counted = itertools.count()
        threading.Thread(target=self.beat, daemon=True).start()
        threads = [threading.Thread(target=some) for _ in range(AT_ONCE)]
        for thread in threads:
            thread.start()
        for thread in threads:
            thread.join()

    def beat(self):
        """Shows that the pages are there which do nothing, until they leave."""
        while not self.over.wait(BEAT):
            for page in list(self.idle):
                try:
                    page.socket.ping()
                except (OSError, ValueError) as error:
                    self.failures.append(str(error) or type(error).__name__)
                    self.idle.remove(page)

    def leave(self):
        self.over.set()
        for page in self.idle:
            page.leave()


class Watch:
    """What the server has: its processes with all that they started, their open files, and the memory of all; `minutes` is what it had minute by minute."""

    def __init__(self, pid):
        self.pid, self.over, self.minutes = pid, threading.Event(), []

    def tree(self):
        """The numbers of the processes."""
        found, waiting = [], [self.pid]
        while waiting:
            process = waiting.pop()
            found.append(process)
            waiting += [int(one) for task in listed("/proc/%d/task" % process) for one in told("/proc/%d/task/%s/children" % (process, task)).split()]
        return found

    def seconds(self):
        """How long the threads of the processes have had a processor, with what these have started and that has ended; and how long they had to wait for one,
        which is what other work on this machine costs."""
        had, waited = 0.0, 0.0
        for process in self.tree():
            told_of = [told("/proc/%d/task/%s/schedstat" % (process, task)).split() for task in listed("/proc/%d/task" % process)]
            ended = told("/proc/%d/stat" % process).rpartition(")")[2].split()[13:15]
            had += sum(int(one[0]) for one in told_of if one) / 1e9 + sum(map(int, ended)) / os.sysconf("SC_CLK_TCK")
            waited += sum(int(one[1]) for one in told_of if one) / 1e9
        return had, waited

    def now(self):
        """How many processes there are, how many files they have open, and the megabytes of all and of the server alone."""
        tree = self.tree()
        return len(tree), sum(len(listed("/proc/%d/fd" % process)) for process in tree), sum(map(megabytes, tree)), megabytes(self.pid)

    def show(self, when):
        """Prints it, and answers it."""
        now = self.now()
        print("%-24s %6d processes, %d files, %.0f MB in all, %.0f MB of the server" % (when, *now), flush=True)
        return now

    def each_minute(self):
        """Prints it each minute, until it is over, and notes it."""
        begun = time.monotonic()
        while not self.over.wait(60):
            self.minutes.append(self.show("after %d s" % (time.monotonic() - begun)))


def listed(folder):
    try:
        return os.listdir(folder)
    except OSError:
        return []


def told(path):
    try:
        return pathlib.Path(path).read_text()
    except OSError:
        return ""


def megabytes(process):
    """A process's memory: what it shares with others is divided among them."""
    found = [line.split()[1] for line in told("/proc/%d/smaps_rollup" % process).splitlines() if line.startswith("Pss:")]
    return int(found[0]) / 1024 if found else 0.0


def row(name, values):
    """A line with the median and what 95 and 99 of 100 stay below, in milliseconds; and these."""
    if not values:
        print("%-24s none" % name)
        return None
    values = sorted(1000 * value for value in values)
    at = [values[min(len(values) - 1, int(len(values) * part))] for part in (0.95, 0.99)]
    print("%-24s %6d times: median %5d ms, 95%% %5d, 99%% %5d, most %5d" % (name, len(values), statistics.median(values), *at, values[-1]))
    return statistics.median(values), at[1]


def missed(measured, given, key, disturbed, before, full, after):
    """Which limits are missed, in words."""
    if measured.begun and not given.idle and statistics.median(measured.begun) * 1000 > BEGINS:
        yield "a page begins within %d ms" % BEGINS
    if key and (key[0] > MEDIAN or key[1] > LATEST):
        yield "a key: the median %d ms, 99%% %d ms" % (MEDIAN, LATEST)
    if key and disturbed and disturbed[0] > key[0] * (1 + SLOWED * given.hostile):
        yield "a hostile page costs the others at most a tenth"
    if before and (after[0] > before[0] or after[1] > before[1] + 2 or after[3] > before[3] + 30):
        yield "what pages had is given back"
    if full and given.idle and (full[2] - before[2]) / given.sessions > MEGABYTES:
        yield "a page has at most %d MB" % MEGABYTES


def arguments(given=None):
    words = argparse.ArgumentParser(description=__doc__, formatter_class=argparse.RawDescriptionHelpFormatter)
    words.add_argument("address", metavar="URL", help="where the page is, as http://127.0.0.1:8765")
    words.add_argument("--origin", metavar="URL", help="the address by which the server knows itself")
    words.add_argument("--sessions", type=int, default=20, help="so many pages (20)")
    words.add_argument("--seconds", type=float, default=10, help="so long all of them type (10)")
    words.add_argument("--within", type=float, default=10, metavar="SECONDS", help="the pages begin within so many seconds (10)")
    words.add_argument("--every", type=float, default=2, help="so many seconds from a key to the next (2)")
    words.add_argument("--file", metavar="FILE", help="what each page has open, in place of a lesson; its second line is typed in")
    words.add_argument("--hostile", type=int, default=0, metavar="N")
    words.add_argument("--idle", action="store_true")
    words.add_argument("--stay", type=float, default=0, metavar="SECONDS")
    words.add_argument("--pid", type=int)
    words.add_argument("--limits", action="store_true")
    return words.parse_args(given)


def main():
    given = arguments()
    given.text = pathlib.Path(given.file).read_text(encoding="utf-8") if given.file else None
    measured, watch, before, full, after = Class(given), Watch(given.pid), None, None, None
    if given.pid:
        before = watch.show("before")
        threading.Thread(target=watch.each_minute, daemon=True).start()
    if given.idle:
        measured.rest()
        time.sleep(given.seconds)
        full = watch.show("%d pages" % len(measured.idle)) if given.pid else None
        measured.leave()
    else:
        measured.run()
    row("a page begins", measured.begun)
    key, disturbed = (row(name, keys) for name, keys in (("a key to its goals", measured.keys), ("beside hostile pages", measured.disturbed)))
    if given.pid:
        watch.over.set()
        time.sleep(10)  # So long bridges may take to end, and what wait ahead to be made again.
        after = watch.show("when all have left")
    for failure in sorted(set(measured.failures)):
        print("%d pages ended: %s" % (measured.failures.count(failure), failure))
    wrong = list(missed(measured, given, key, disturbed, before, full, after)) if given.limits else []
    for limit in wrong:
        print("MISSED: " + limit)
    return 1 if measured.failures or wrong else 0


if __name__ == "__main__":
    sys.exit(main())
