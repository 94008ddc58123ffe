"""`holls` in a process of its own that needn't load its modules first: one that has loaded them makes one of itself for each that is wanted.

To start Python, and to load what `holls` loads, takes longer than what most tests have it do. What is made here has its own words, folder, environment,
standard streams, memory and end, as what is started anew; which modules a command loads it doesn't show. So test_costs, test_help and test_package, and
who else asks that, start it anew, as HOLLS.
"""

import atexit
import ctypes
import gc
import importlib
import io
import json
import os
import pathlib
import pkgutil
import select
import signal
import socket
import subprocess
import sys
import threading
import traceback

HERE = pathlib.Path(__file__).resolve()
if __name__ == "__main__":
    sys.path.insert(0, str(HERE.parents[1]))

from tests.helpers import HOLLS, PYTHON, SECONDS, at_end  # noqa: E402

MESSAGE_BYTES = 1 << 17
SUBREAPER = 36
LAZY = ("holls.serving", "holls.exchange", "holls.api")
"""What no test has made here needs from the beginning: it is loaded where it is used."""
ENDS = slice(10, 16)
"""Where `subprocess` hands the ends of its pipes on to what starts a process: in pairs, those of the process first where it reads, else last."""


class Maker:
    """The process that makes them, and what is left to tell of them. It ends with the one that has started it."""

    def __init__(self):
        self.ours, theirs = socket.socketpair(socket.AF_UNIX, socket.SOCK_SEQPACKET)
        self.lock, self.seconds = threading.Lock(), 0.0
        self.process = subprocess.Popen([*PYTHON, str(HERE), str(theirs.fileno())], pass_fds=[theirs.fileno()], stdin=subprocess.DEVNULL)
        theirs.close()

    def make(self, words, folder, environment, is_leader, streams):
        """Makes a process. Answers its number, and what its end is read from."""
        told, tells = os.pipe()
        about = json.dumps([words, folder, environment, is_leader]).encode()
        try:
            with self.lock:
                socket.send_fds(self.ours, [about], [*streams, tells])
        finally:
            os.close(tells)
        return int(os.read(told, 32)), told

    def stop(self):
        MAKERS.clear()
        self.ours.close()
        self.process.wait()


MAKERS = []
"""The one that there is, if it has been wanted."""


def maker():
    """That of this process, which it may have of the one that has forked it."""
    if not MAKERS:
        MAKERS.append(Maker())
        at_end(MAKERS[0].stop)
    return MAKERS[0]


def spent():
    """The processors' time of what was made for this process and has ended, with all that it started."""
    return MAKERS[0].seconds if MAKERS else 0.0


class Holls(subprocess.Popen):
    """`holls` with these words, as `subprocess.Popen` starts a program."""

    def __init__(self, *words, **how):
        super().__init__([*PYTHON, str(HOLLS), *map(str, words)], **how)

    def _execute_child(self, args, *given):
        """What `subprocess` has do the starting, with the ends of its pipes."""
        given = (args, *given)
        ends = given[ENDS]
        streams = [ours if theirs == -1 else theirs for ours, theirs in zip(range(3), (ends[0], ends[3], ends[5]))]
        folder = os.path.abspath(os.fspath(given[5] or "."))
        environment = {name: value for name, value in (os.environ if given[6] is None else given[6]).items()}
        self.told = None
        try:
            self.pid, self.told = maker().make(args[len(PYTHON):], folder, environment, bool(given[21]), streams)
        finally:
            self._close_pipe_fds(*ends)
        self._child_created = True

    def _internal_poll(self, *_, **__):
        return self.returncode if self.returncode is not None or self.told is None or not self._is_ended(0) else self.returncode

    def _wait(self, timeout):
        if self.returncode is None and not self._is_ended(timeout):
            raise subprocess.TimeoutExpired(self.args, timeout)
        return self.returncode

    def _is_ended(self, seconds):
        """Whether it ends within some seconds, or ever where none are given."""
        waiting = select.poll()
        waiting.register(self.told, select.POLLIN | select.POLLHUP)
        if not waiting.poll(None if seconds is None else 1000 * max(0, seconds)):
            return False
        status, seconds = os.read(self.told, 64).decode().split()
        os.close(self.told)
        self.told, self.returncode = None, int(status)
        maker().seconds += float(seconds)
        return True


def run(*words, input=None, timeout=SECONDS, **how):
    """Runs `holls` with these words to its end, as `subprocess.run` does; what it writes is kept."""
    streams = {"stdin": subprocess.DEVNULL if input is None else subprocess.PIPE, "stdout": subprocess.PIPE, "stderr": subprocess.PIPE}
    with Holls(*words, **{**streams, **how}) as process:
        try:
            output, complaint = process.communicate(input, timeout)
        except BaseException:
            process.kill()
            raise
    return subprocess.CompletedProcess(process.args, process.returncode, output, complaint)


# In the process that makes them

class Making:
    """Takes what is wanted, makes it, and tells of its end."""

    def __init__(self, control):
        self.control, self.ends, self.orphans = control, {}, 0.0
        self.woken, wakes = os.pipe()
        for end in (self.woken, wakes):
            os.set_blocking(end, False)
        signal.signal(signal.SIGCHLD, lambda *_: None)
        signal.set_wakeup_fd(wakes, warn_on_full_buffer=False)
        self.own = [control.fileno(), self.woken, wakes]

    def go(self):
        """Until nobody wants anything any more."""
        while True:
            ready = select.select([self.control, self.woken], [], [])[0]
            if self.woken in ready:
                os.read(self.woken, 4096)
                self.reap()
            if self.control in ready:
                about, streams, _, _ = socket.recv_fds(self.control, MESSAGE_BYTES, 4)
                if not about:
                    return
                self.make(json.loads(about), streams)

    def make(self, about, streams):
        made = os.fork()
        if not made:
            begin(*about, streams[:3], [*self.own, *self.ends.values(), *streams])
        for stream in streams[:3]:
            os.close(stream)
        self.ends[made] = streams[3]
        os.write(streams[3], b"%d\n" % made)

    def reap(self):
        """Tells of what has ended. What that had started and not waited for ends here too."""
        while True:
            try:
                ended, status, used = os.wait3(os.WNOHANG)
            except ChildProcessError:
                return
            if not ended:
                return
            seconds = used.ru_utime + used.ru_stime
            if ended not in self.ends:
                self.orphans += seconds
                continue
            end, told = self.ends.pop(ended), b"%d %f\n" % (os.waitstatus_to_exitcode(status), seconds + self.orphans)
            self.orphans = 0.0
            try:
                os.write(end, told)
            except BrokenPipeError:
                pass  # Nobody asks any more.
            os.close(end)


def begin(words, folder, environment, is_leader, streams, own):
    """Becomes what is wanted, and ends as Python does."""
    signal.set_wakeup_fd(-1)
    signal.signal(signal.SIGCHLD, signal.SIG_DFL)
    for at, stream in enumerate(streams):
        os.dup2(stream, at)
    for end in own:
        os.close(end)
    if is_leader:
        os.setsid()
    status = 1
    try:
        os.chdir(folder)
        os.environ.clear()
        os.environ.update(environment)
        sys.argv = words
        sys.stdin, sys.stdout, sys.stderr = opened(0, "r", sys.stdin), opened(1, "w", sys.stdout), opened(2, "w", sys.stderr)
        status = ended()
        threading._shutdown()
        atexit._run_exitfuncs()
        for stream in (sys.stdout, sys.stderr):
            stream.flush()
    finally:
        os._exit(status)


def opened(number, mode, as_before):
    """A standard stream, with the letters of the one that was there."""
    is_text_line = number == 2 or os.isatty(number)
    return io.open(number, mode, encoding=as_before.encoding, errors=as_before.errors, newline=None if mode == "r" else "\n", closefd=False,
                   **({"buffering": 1} if is_text_line and mode == "w" else {}))


def ended():
    """Runs `holls`. Answers its status."""
    try:
        return importlib.import_module("holls.__main__").run()
    except SystemExit as error:
        if error.code is None or isinstance(error.code, int):
            return error.code or 0
        print(error.code, file=sys.stderr)
    except BaseException:  # noqa: BLE001: as Python tells it
        traceback.print_exc()
    return 1


def main():
    """Loads the modules, and makes what is wanted."""
    ctypes.CDLL(None).prctl(SUBREAPER, 1, 0, 0, 0)
    control = socket.socket(fileno=int(sys.argv[1]))
    package = importlib.import_module("holls")
    for one in pkgutil.walk_packages(package.__path__, "holls."):
        if not one.name.startswith(LAZY) and not one.name.endswith("__main__"):
            importlib.import_module(one.name)
    gc.collect()
    gc.freeze()
    Making(control).go()


if __name__ == "__main__":
    main()
