"""The words that the editors colour: put into their files from the clients' tables, where they stand once.

    python3 clients/colours.py            whether the editors' files have these words; status 1 where they haven't
    python3 clients/colours.py --write    puts them in
"""

import argparse
import pathlib
import re
import sys
from typing import Dict, List, NamedTuple, Sequence

CLIENTS = pathlib.Path(__file__).resolve().parent
if __name__ == "__main__":
    sys.path.insert(0, str(CLIENTS))

from holls import manual  # noqa: E402

VIM = CLIENTS / "neovim" / "syntax" / "hol.vim"
CODE = CLIENTS / "vscode" / "syntaxes" / "hol.tmLanguage.json"


class Place(NamedTuple):
    """Where words stand in a file: what stands before and behind them, both as patterns, and what stands between two of them."""

    file: pathlib.Path
    before: str
    behind: str
    between: str
    words: Sequence[str]


COMMANDS = list(manual.COMMANDS)
TACTICALS = list(manual.TACTICALS)
DECLARATIONS = [word for word in (*manual.DECLARATIONS, *manual.PACKAGES) if word != "local"]
PLACES = (
    Place(VIM, r"\nsyntax keyword holCommand ", r"\n", " ", COMMANDS),
    Place(VIM, r"\nsyntax keyword holTactical ", r"\n", " ", TACTICALS),
    Place(VIM, r"\nsyntax match holDeclaration .*local.*?\\%\(", r"\\\)\\>", r"\|", DECLARATIONS),
    Place(CODE, r'"keyword\.control\.hol", "match": "\\\\b\(', r"\)", "|", COMMANDS),
    Place(CODE, r'"keyword\.operator\.hol", "match": "\\\\b\(', r"\)", "|", TACTICALS),
    Place(CODE, r'"keyword\.other\.hol", "match": ".*local.*?\(', r"\)", "|", DECLARATIONS),
)


def made(place: Place, text: str) -> str:
    """A file's text with the words at a place. Raises ValueError where the place isn't there once."""
    words = place.between.join(place.words)
    text, found = re.subn("(%s)[A-Za-z_|\\\\ ]+(%s)" % (place.before, place.behind), lambda match: match.group(1) + words + match.group(2), text, count=2)
    if found != 1:
        raise ValueError("%s has no place for words, or two: %s" % (place.file.name, place.before))
    return text


def files() -> Dict[pathlib.Path, str]:
    """The editors' files with their words."""
    texts: Dict[pathlib.Path, str] = {}
    for place in PLACES:
        texts[place.file] = made(place, texts.get(place.file) or place.file.read_text(encoding="utf-8"))
    return texts


def stale() -> List[pathlib.Path]:
    """The files that have other words."""
    return [path for path, text in files().items() if path.read_text(encoding="utf-8") != text]


def main() -> int:
    words = argparse.ArgumentParser(description="the words that the editors colour")
    words.add_argument("--write", action="store_true", help="put them into the editors' files")
    given = words.parse_args()
    for path in stale():
        if given.write:
            path.write_text(files()[path], encoding="utf-8")
        print("%s %s" % ("written" if given.write else "other words stand in", path.relative_to(CLIENTS.parent)))
    return 1 if stale() else 0


if __name__ == "__main__":
    sys.exit(main())
