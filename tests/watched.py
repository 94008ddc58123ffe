"""The built program while it runs: what it answers, and what that takes of processor time, memory and stack, as Linux tells."""

import pathlib
import resource
import subprocess

BUILT = pathlib.Path(__file__).resolve().parent.parent / "crates" / "hol_serve" / "out" / "hol_serve"
# A pipe holds 65,536 bytes: so much can be sent before a reply is read.
AT_ONCE = 32_768


def limited(limits):
    """What sets limits, as pairs of a resource and a number, in the process that is about to become the program."""
    def set_limits():
        for kind, most in limits:
            resource.setrlimit(kind, (most, most))

    return set_limits


def used(before, after):
    """The kilobytes of stack down to the deepest byte that changed between two answers of `stack`."""
    before = bytes(max(0, len(after) - len(before))) + before
    return -(-(len(after) - next((at for at in range(0, len(after), 1024) if before[at : at + 1024] != after[at : at + 1024]), len(after))) // 1024)


class Watched:
    """A running program. `told` is where its standard error goes."""

    def __init__(self, program, words=(), limits=(), environment=None, told=None):
        pipes = {"stdin": subprocess.PIPE, "stdout": subprocess.PIPE, "stderr": told}
        self.process = subprocess.Popen([program, *words], **pipes, env=environment, preexec_fn=limited(limits))

    def ask(self, lines):
        """The replies to lines, each without its newline; fewer where the program ends."""
        replies, waiting, size = [], [], 0
        for line in lines:
            if waiting and size + len(line) >= AT_ONCE:
                replies += self._answered(waiting)
                waiting, size = [], 0
            waiting.append(line)
            size += len(line) + 1
        return replies + self._answered(waiting)

    def _answered(self, lines):
        try:
            self.process.stdin.write(b"".join(line + b"\n" for line in lines))
            self.process.stdin.flush()
        except BrokenPipeError:
            pass
        replies = (self.process.stdout.readline() for _ in lines)
        return [reply[:-1] for reply in replies if reply.endswith(b"\n")]

    def seconds(self):
        """The processor time that it took."""
        return int(pathlib.Path(f"/proc/{self.process.pid}/schedstat").read_text().split()[0]) / 1e9

    def kilobytes(self, key):
        """VmHWM, the most memory that it had."""
        for line in pathlib.Path(f"/proc/{self.process.pid}/status").read_text().splitlines():
            if line.startswith(key + ":"):
                return int(line.split()[1])
        return 0

    def stack(self):
        """What stands on its stack and below, as far as it is mapped: the last byte is where the program began. It has to wait for a line."""
        maps = pathlib.Path(f"/proc/{self.process.pid}/maps").read_text().splitlines()
        first, last = (int(end, 16) for end in next(it for it in maps if it.endswith("[stack]")).split()[0].split("-"))
        with open(f"/proc/{self.process.pid}/mem", "rb", buffering=0) as memory:
            memory.seek(first)
            return memory.read(last - first)

    def is_waiting(self):
        """Whether it sleeps, as it does until a line comes."""
        return pathlib.Path(f"/proc/{self.process.pid}/stat").read_text().rpartition(")")[2].split()[0] == "S"

    def end(self):
        """Ends its input: what it still writes, and its status."""
        try:
            self.process.stdin.close()
        except BrokenPipeError:
            pass
        rest = self.process.stdout.read()
        return rest, self.process.wait(timeout=60)
