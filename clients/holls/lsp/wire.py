"""Messages of the Language Server Protocol on a pipe: a head with Content-Length, and JSON."""

from __future__ import annotations

import json
from typing import Any, BinaryIO, Dict, Optional

MESSAGE_BYTES = 1 << 28


class Malformed(Exception):
    """What was read is no message; the text says why."""


class BadJson(Exception):
    """A message whose body is no JSON object. The next message can be read."""


def read(stream: BinaryIO, most: int = MESSAGE_BYTES) -> Optional[Dict[str, Any]]:
    """The next message, of so many bytes at most, or None at the end."""
    length = _length(stream, most)
    if length is None:
        return None
    body = stream.read(length)
    if len(body) < length:
        return None
    try:
        message = json.loads(body.decode("utf-8"))
    except (ValueError, RecursionError):
        raise BadJson() from None
    if not isinstance(message, dict):
        raise BadJson()
    return message


def _length(stream: BinaryIO, most: int) -> Optional[int]:
    """The length that a head names, or None at the end."""
    length = None
    for line in iter(lambda: stream.readline(4096), b""):
        if line in (b"\r\n", b"\n"):
            if length is None:
                raise Malformed("a head without Content-Length")
            return length
        name, _, value = line.partition(b":")
        if name.strip().lower() == b"content-length":
            length = _number(value.strip(), most)
    return None


def _number(value: bytes, most: int) -> int:
    if not value.isdigit() or len(value) > 9 or int(value) > most:
        raise Malformed("a Content-Length that is no length")
    return int(value)


def write(stream: BinaryIO, message: Dict[str, Any]) -> None:
    """Writes a message."""
    body = json.dumps(dict(message, jsonrpc="2.0"), separators=(",", ":")).encode("ascii")
    stream.write(b"Content-Length: %d\r\n\r\n" % len(body) + body)
    stream.flush()
