"""HOL Light's toplevel, to which phrases are sent in turn with what is measured here. Debian's package: apt-get install hol-light libnum-ocaml-dev."""

import os
import pathlib
import subprocess
import tempfile
import threading

ROOT = "/usr/share/hol-light"
LAST = 'loads "class.ml";;'


def installed():
    return os.path.exists(f"{ROOT}/hol.ml")


class HolLight:
    """A running toplevel, loaded up to class.ml. `more` is OCaml that is loaded behind lines of hol.ml that begin so."""

    def __init__(self, more=None):
        more, self.asked = more or {}, 0
        self.room = tempfile.TemporaryDirectory()
        for number, text in enumerate(more.values()):
            pathlib.Path(self.room.name, f"more{number}.ml").write_text(text, encoding="utf-8")
        with open(f"{ROOT}/hol.ml", encoding="utf-8") as whole, open(f"{self.room.name}/init.ml", "w", encoding="utf-8") as init:
            for line in whole:
                init.write(line)
                init.write("".join(f'loads "{self.room.name}/more{number}.ml";;\n' for number, start in enumerate(more) if line.startswith(start)))
                if line.startswith(LAST):
                    break
        words = [f"{ROOT}/ocaml", "-noprompt", "-init", f"{self.room.name}/init.ml"]
        self.process = subprocess.Popen(words, stdin=subprocess.PIPE, stdout=subprocess.PIPE, stderr=subprocess.STDOUT, text=True)
        self.ask("")

    def ask(self, phrases):
        """What it prints for these phrases."""
        self.asked += 1
        end = f"asked {self.asked}"
        writer = threading.Thread(target=self.write, args=(f'{phrases}\nPrintf.printf "\\n{end}\\n%!";;\n',))
        writer.start()  # beside the reading, since both pipes may be full
        lines = []
        for line in self.process.stdout:
            if line.rstrip() == end:
                writer.join()
                return "".join(lines)
            lines.append(line)
        raise RuntimeError("HOL Light ended: " + "".join(lines[-5:]))

    def write(self, text):
        try:
            self.process.stdin.write(text)
            self.process.stdin.flush()
        except BrokenPipeError:
            pass  # the missing end tells

    def close(self):
        self.process.stdin.close()
        self.process.stdout.read()
        self.process.stdout.close()
        self.process.wait()
        self.room.cleanup()

    def __enter__(self):
        return self

    def __exit__(self, *_):
        self.close()
