#!/usr/bin/env python3
"""Lists public calls of the crates that nothing calls: no other function of any crate, no test and no program.

    python3 tools/uncalled.py    the last line is 'uncalled: N passed, M failed'

A contract says what a call promises where it answers, and none says that there is memory: so a body that always gives up meets it, and a call that nothing
makes could have that body. Each public call is therefore made somewhere, or stands in ALLOWED or FOUND below with its reason. Both tables have to be true:
one who stands in them and is called, or is gone, fails as well.

This reads words, not types: of a method it knows the name alone, so that of two types with a method of one name a call of one counts for both."""

import collections
import dataclasses
import pathlib
import re
import sys
from typing import Dict, Iterable, Iterator, List

CRATES = pathlib.Path(__file__).resolve().parent.parent / "crates"

# Calls that nothing makes, and that are there for another reason.
ALLOWED: Dict[str, str] = {}
# Calls that nothing makes: to be called by a test or taken out. This table may only become shorter.
FOUND: Dict[str, str] = {}

# The crates whose calls count as a caller's alone: tests and timings.
CALLERS = ("hol_logic_tests", "hol_library_tests", "hol_bench")
# Functions that state something, and have nothing to do: nobody has to call them. So it is with each whose body is empty.
LAWS = "laws.rt"


@dataclasses.dataclass(frozen=True)
class Call:
    """A public function, and where it stands."""

    crate: str
    owner: str  # the type that it belongs to, or nothing
    name: str
    takes_self: bool
    path: pathlib.Path
    begin: int
    end: int

    @property
    def key(self) -> str:
        return f"{self.crate} {self.owner + '::' if self.owner else ''}{self.name}"


def blanked(match: "re.Match[str]") -> str:
    return re.sub(r"[^\n]", " ", match.group(0))


def closing(text: str, at: int) -> int:
    """The place behind the bracket that closes the one at this place."""
    depth = 0
    for match in re.compile(r"[][(){}]").finditer(text, at):
        depth += 1 if match.group(0) in "{([" else -1
        if depth == 0:
            return match.end()
    return len(text)


def code_of(text: str) -> str:
    """The code alone, every byte at its place: no comments, texts, ghost lines, clauses or imports."""
    text = re.sub(r'//[^\n]*|b?"(?:[^"\\]|\\.)*"|b?\'(?:[^\'\\\n]|\\.)\'', blanked, text)
    text = re.sub(r"^\s*ghost\b[^;]*;|^\s*(?:pub(?:\([a-z]+\))? )?use\b[^;]*;", blanked, text, flags=re.M)
    for match in reversed(list(re.finditer(r"\b(?:requires|ensures|decreases|invariant|using(?!\()|ghost)\b[^{};]*(?=\{)", text))):
        end = closing(text, match.end())
        text = text[: match.start()] + re.sub(r"[^\n]", " ", text[match.start() : end]) + text[end:]
    return text


def owners(code: str) -> Iterator[tuple]:
    """Each block of a type's functions: the type, and where it begins and ends."""
    for match in re.finditer(r"^impl\b(?:<[^{]*?>)? *(?P<type>[^{]*?)\{", code, re.M):
        of = match.group("type").split(" for ")[-1].split(" where ")[0].strip()
        yield re.sub(r"<.*", "", of).split("::")[-1].strip(" &"), match.start(), closing(code, match.end() - 1)


def calls_of(crate: str, path: pathlib.Path, code: str) -> Iterator[Call]:
    blocks = list(owners(code))
    for match in re.finditer(r"^ *pub (?:const |unsafe )*fn (\w+)(?:<[^(]*>)?\(", code, re.M):
        owner = next((of for of, begin, end in blocks if begin < match.start() < end), "")
        parameters = code[match.end() : closing(code, match.end() - 1)]
        body = code.find("{", match.end())
        if not code[body : closing(code, body)].strip("{} \n"):
            continue
        takes_self = bool(re.match(r"\s*(?:&(?:'\w+ )?)?(?:mut )?self\b", parameters))
        yield Call(crate, owner, match.group(1), takes_self, path, match.start(), closing(code, body))


@dataclasses.dataclass(frozen=True)
class Use:
    """A place where a function's name stands in code."""

    path: pathlib.Path
    at: int
    before: str  # the type or module that it is taken from, '.' of a method, or nothing
    is_called: bool  # a bracket follows, or the name is taken from a type or module, or handed on


def qualifier(tokens: List[str], at: int) -> str:
    """The word before the '::' at this place, generic arguments left out."""
    at -= 1
    if tokens[at] == ">":
        depth = 0
        while at >= 0:
            depth += (tokens[at] == ">") - (tokens[at] == "<")
            at -= 1
            if depth == 0:
                break
        at -= tokens[at] == "::"
    return tokens[at] if at >= 0 else ""


def uses_in(path: pathlib.Path, code: str, names: frozenset) -> Iterator[tuple]:
    """Each of these names where it stands, but for where it is defined."""
    found = list(re.finditer(r"\w+|::|\S", code))
    tokens = [match.group(0) for match in found]
    for at, word in enumerate(tokens):
        if word in names and tokens[at - 1] != "fn":
            before = tokens[at - 1]
            followed = tokens[at + 1 : at + 2] == ["("] or tokens[at + 1 : at + 3] == ["::", "<"]
            if before == "::":
                yield word, Use(path, found[at].start(), qualifier(tokens, at - 1), True)
            elif before == ".":
                yield word, Use(path, found[at].start(), ".", followed)
            else:
                handed_on = before in ("(", ",") and tokens[at + 1] in (",", ")")
                yield word, Use(path, found[at].start(), "", followed or handed_on)


def is_called(call: Call, uses: Iterable[Use]) -> bool:
    """Whether it is called outside of its own body."""
    for use in uses:
        inside = use.path == call.path and call.begin <= use.at < call.end
        if inside or not use.is_called:
            continue
        if not call.owner and use.before != "." or call.takes_self and use.before == ".":
            return True
        if call.owner and use.before in (call.owner, "Self" if use.path == call.path else call.owner):
            return True
    return False


def main() -> None:
    files = sorted(CRATES.glob("*/src/**/*.rt"))
    codes = {path: code_of(path.read_text(encoding="utf-8")) for path in files}
    calls: List[Call] = []
    for path, code in codes.items():
        crate = path.relative_to(CRATES).parts[0]
        if crate not in CALLERS and path.name != LAWS:
            calls += calls_of(crate, path, code)
    if len(calls) < 500:
        sys.exit(f"uncalled: {len(calls)} public calls found in {CRATES}: do they stand in another form?")
    known = {**ALLOWED, **FOUND}
    names = frozenset(call.name for call in calls)
    uses = collections.defaultdict(list)
    for path, code in codes.items():
        for name, use in uses_in(path, code, names):
            uses[name].append(use)
    uncalled = {call.key for call in calls if not is_called(call, uses[call.name])}
    faults = [f"{key}: nothing calls it; a test or a program has to, or it goes" for key in sorted(uncalled - set(known))]
    faults += [f"{key}: it is called by now, or gone, and still stands in a table of tools/uncalled.py" for key in sorted(set(known) - uncalled)]
    for fault in faults:
        print(f"FAILED  {fault}")
    counts = collections.Counter("allowed" if key in ALLOWED else "found" for key in known)
    print(f"{len(calls)} public calls; allowed to have no caller: {counts['allowed']}, to be called or taken out: {counts['found']}")
    print(f"uncalled: {len(calls) - len(faults)} passed, {len(faults)} failed")
    sys.exit(1 if faults else 0)


if __name__ == "__main__":
    main()
