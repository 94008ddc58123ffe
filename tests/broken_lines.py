"""Request lines with each kind of oddity of JSON, and by which number each must be refused, by rules of this file's own.

JSON is read by Python's reader, made as strict as RFC 8259, with numbers kept as they are written. What docs/PROTOCOL.md adds: numbers beyond a double and
lone surrogates are no JSON, 127 arrays and objects may stand in one another, and of a repeated key the last counts."""

import json
import re

ERRORS = {
    1: "line too long", 2: "not JSON", 3: "shape", 4: "unknown theory", 5: "theory name taken", 6: "bad theory name", 7: "position out of range", 8: "too many",
}
TEXTS = {"name": "IDENT", "theory": "IDENT", "text": "any"}
KEYS = {
    "new_theory": ("name", "at"), "drop_theory": ("name",), "insert": ("theory", "at", "text"), "replace": ("theory", "at", "text"), "remove": ("theory", "at"),
    "report": ("theory", "at"), "theorems": ("theory",), "basis": ("theory", "name"), "stats": (), "close": (),
}
# What is put for one byte, or before it.
BYTES = [bytes([byte]) for byte in b'"\\{}[]:,.-+eE0 1/\t\r\0\x1f\x7f\x80\xbf\xc0\xc1\xe2\xf0\xf5\xff']
BYTES += ["\ufeff".encode(), "é".encode(), b"\xed\xa0\x80", b"\xc0\x80", b"\xf4\x90\x80\x80", b"\\u0000", b"\\ud800", b"\\ud83d\\ude00", b"\\uD83D", b"\\x41", b"\\/"]
# Values for a key, all of them of JSON or nearly.
VALUES = """0 -0 1 -1 00 01 1. .1 1.0 1e0 1E0 1e+0 0e0 1e400 1e-400 -1e400 0e400 1e308 1e309 18446744073709551615 18446744073709551616 99999999999999999999999 +1 0x1 1_0 - -a
NaN Infinity -Infinity nan null nul nulll true True false TRUE undefined "" "A" "B" "0" "\\u0041" "\\u00" "\\ud800" "\\udc00\\ud800" "\\ud83d\\ude00" "\\q" "\\" " 'A' "A
[] [0] [0,] [,0] [0 0] [0}] {} {"a":0} {"a":0,} {a:0} {"a"} {"a":} {:0} {"a":0 "b":0} {"a":0,"a":1} /**/0 0// "A""B" "A"+"B" "\t" A""".split()
VALUES += ['"A\tB"', '"A B"', '"' + "A" * 64 + '"', '"' + "A" * 65 + '"', '"x\'_1"', '"1A"', '"é"', "1" * 400, "0." + "0" * 400 + "1", '"\\u0041\\b\\f\\n\\r\\t\\/\\\\\\""']


class Number:
    """A number as it is written."""

    def __init__(self, text):
        if abs(float(text)) == float("inf"):
            raise ValueError(text)
        self.at = int(text) if re.fullmatch(r"[0-9]+", text) and int(text) < 2**64 else None


def refuse(text):
    raise ValueError(text)


def depth(value):
    parts = value.values() if isinstance(value, dict) else value if isinstance(value, list) else None
    return 0 if parts is None else 1 + max(map(depth, parts), default=0)


def texts_of(value):
    """All texts in a value, keys too."""
    if isinstance(value, str):
        yield value
    elif isinstance(value, (list, dict)):
        for part in value:
            yield from texts_of(part)
        for part in value.values() if isinstance(value, dict) else ():
            yield from texts_of(part)


def nested(line):
    """How many brackets are open at once, at most, outside of texts."""
    most = now = 0
    for byte in re.sub(rb'"(?:[^"\\]|\\.)*"?', b"", line):
        now += (byte in b"[{") - (byte in b"]}")
        most = max(most, now)
    return most


def value_of(line):
    """The value of a line; ValueError where it is no JSON."""
    if nested(line) > 127:
        raise ValueError("too deep")
    # An object's keys that are repeated are read as well, so its pairs are looked at before the last ones count.
    seen = []

    def object_of(pairs):
        seen.extend(pairs)
        return dict(pairs)

    value = json.loads(line.decode(), parse_int=Number, parse_float=Number, parse_constant=refuse, object_pairs_hook=object_of)
    for text in [*texts_of(value), *(text for pair in seen for part in pair for text in texts_of(part))]:
        text.encode()
    return value


def is_shaped(value):
    """Whether the value is a request."""
    if not isinstance(value, dict) or not isinstance(value.get("op"), str) or value["op"] not in KEYS:
        return False
    fits = {"at": lambda it: isinstance(it, Number) and it.at is not None}
    return all(key in value and fits.get(key, lambda it: isinstance(it, str))(value[key]) for key in KEYS[value["op"]])


def error_of(line, theories):
    """By which number a line is refused, over theories with so many commands each; and what it asks where it isn't."""
    if len(line) > 65_536:
        return 1, None
    try:
        value = value_of(line)
    except (ValueError, RecursionError):
        return 2, None
    if not is_shaped(value):
        return 3, None
    op, theory = value["op"], value.get("name" if value["op"] in ("new_theory", "drop_theory") else "theory")
    at = value["at"].at if "at" in KEYS[op] else 0
    if op in ("stats", "close"):
        return None, value
    if op != "new_theory" and theory not in theories:
        return 4, None
    if op == "new_theory" and theory in theories:
        return 5, None
    if op == "new_theory" and not re.fullmatch(r"[A-Za-z_][A-Za-z0-9_']{0,63}", theory):
        return 6, None
    ends = {"new_theory": len(theories), "insert": theories.get(theory)}
    if op in ("new_theory", "insert", "replace", "remove", "report") and at > ends.get(op, theories.get(theory, 0) - 1):
        return 7, None
    if op == "new_theory" and len(theories) == 64 or op == "insert" and theories[theory] == 1_000:
        return 8, None
    return None, value


def carried_out(value, theories):
    """The theories behind a request that isn't refused."""
    new, op = dict(theories), value["op"]
    if op == "new_theory":
        new[value["name"]] = 0
    elif op == "drop_theory":
        del new[value["name"]]
    elif op in ("insert", "remove"):
        new[value["theory"]] += 1 if op == "insert" else -1
    return new


def requests():
    """One of each kind."""
    yield b'{"op":"report","theory":"A","at":0}'
    yield b'{ "at" : 1 , "op" : "insert" , "theory" : "A" , "text" : "g N `x:A = x`" }'
    yield b'{"op":"replace","theory":"A","at":0,"text":"new_type t 0","other":[{"a":[1.5e3,-0,true,null,"\\u00e9\\n"]}]}'
    yield b'{"op":"new_theory","name":"B","at":1}'
    yield b'{"op":"basis","theory":"A","name":"N"}'
    yield b'{"op":"theorems","theory":"A"}'
    yield b'{"op":"remove","theory":"A","at":1}'
    yield b'{"op":"drop_theory","name":"B"}'
    yield b'{"op":"stats"}'


def odd_lines(rng):
    """The requests broken at each byte, and with each value for each key."""
    for line in requests():
        yield line
        for at in range(len(line)):
            yield line[:at]
            yield line[:at] + line[at + 1:]
            for put in rng.sample(BYTES, 6):
                yield line[:at] + put + line[at + 1:]
                yield line[:at] + put + line[at:]
        for key in (b"op", b"theory", b"name", b"at", b"text", b"other"):
            for value in VALUES:
                # The first pair of the line, and the last one.
                yield b'{"%s":%s,' % (key, value.encode()) + line.strip()[1:]
                yield line.strip()[:-1] + b',"%s":%s}' % (key, value.encode())
        for value in VALUES:
            yield value.encode()
    for deep in (1, 63, 126, 127, 128, 5_000, 30_000):
        for left, right, inner in ((b"[", b"]", b""), (b'{"a":', b"}", b"0"), (b"[[", b"]]", b""), (b'[{"a":', b"}]", b"0")):
            yield b'{"op":"stats","x":' + left * deep + inner + right * deep + b"}"
            yield left * deep
            yield left * deep + inner + right * deep
    yield from (b"\xef\xbb\xbf" + b'{"op":"stats"}', b'{"op":"stats"}\x0c', b'{"op":"stats"}\xc2\xa0', b'\t\r {"op":"stats"}\r', b'{"op":"stats"};', b"\0")
