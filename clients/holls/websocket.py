"""WebSockets (RFC 6455) as far as the page's server and its tests need them: the handshake, and messages of text either way.

What the other side may have a reader do is bounded: a message has at most so many bytes and so many fragments, and a frame that the standard
forbids ends the connection. How long a read or a write may take is the connection's own limit.
"""

from __future__ import annotations

import base64
import hashlib
import os
import struct
import threading
from typing import BinaryIO, Iterator, NamedTuple, Optional

_GUID = "258EAFA5-E914-47DA-95CA-C5AB0DC85B11"
MESSAGE_BYTES = 4 << 20
"""A longer message ends the connection."""
FRAGMENTS = 1024
"""A message of more frames, pings between them counted, ends the connection."""
CONTROL_BYTES = 125
"""So many bytes a ping, a pong or a close has at most."""

NORMAL, BROKEN, TOO_LONG = 1000, 1002, 1009
"""Why a connection is closed, by the standard's numbers."""
_MORE, _TEXT, _CLOSE, _PING, _PONG = 0, 1, 8, 9, 10


class Closed(Exception):
    """The other side has closed the connection, broke off, or sent what can't be taken; `code` is what it is to be told."""

    def __init__(self, reason: str, code: int = NORMAL) -> None:
        super().__init__(reason)
        self.code = code


class _Frame(NamedTuple):
    is_last: bool
    kind: int
    data: bytes


def accept_key(key: str) -> str:
    """What answers a handshake's key."""
    return base64.b64encode(hashlib.sha1((key + _GUID).encode("ascii", "replace")).digest()).decode("ascii")


def new_key() -> str:
    """A key for a handshake."""
    return base64.b64encode(os.urandom(16)).decode("ascii")


class WebSocket:
    """A connection after its handshake. A client masks what it sends, as the standard asks; `most` bounds a message's bytes."""

    def __init__(self, reader: BinaryIO, writer: BinaryIO, is_client: bool = False, most: int = MESSAGE_BYTES) -> None:
        self._reader, self._writer, self._is_client, self._most = reader, writer, is_client, most
        self._lock = threading.Lock()

    def send(self, text: bytes) -> None:
        """Sends a message of text in UTF-8. An OSError says that the other side is gone, or reads nothing."""
        self._write(_TEXT, text)

    def ping(self) -> None:
        """Asks the other side whether it is there. An OSError says that it isn't."""
        self._write(_PING, b"")

    def close(self, code: int = NORMAL, reason: str = "") -> None:
        """Says that the connection ends, with as much of the words as a close holds."""
        words = reason.encode("utf-8")[:CONTROL_BYTES - 2].decode("utf-8", "ignore").encode("utf-8")
        try:
            self._write(_CLOSE, struct.pack(">H", code) + words)
        except (OSError, ValueError):
            pass  # It has ended already.

    def messages(self) -> Iterator[bytes]:
        """The messages that come, until the connection is closed. What can't be taken closes it."""
        try:
            while True:
                yield self.receive()
        except Closed as error:
            self.close(error.code, str(error) if error.code != NORMAL else "")
        except (OSError, ValueError):
            return

    def receive(self) -> bytes:
        """The next message; pings are answered. Closed where there is none."""
        parts = bytearray()
        is_begun = False
        for _ in range(FRAGMENTS):
            frame = self._frame(self._most - len(parts))
            if frame.kind == _CLOSE:
                raise Closed(frame.data[2:].decode("utf-8", "replace"))
            if frame.kind == _PING:
                self._write(_PONG, frame.data)
            elif frame.kind in (_TEXT, _MORE):
                if is_begun is (frame.kind == _TEXT):
                    raise Closed("a message begins within another one, or goes on without a beginning", BROKEN)
                is_begun = True
                parts += frame.data
                if frame.is_last:
                    return bytes(parts)
            elif frame.kind != _PONG:
                raise Closed("a frame that is no text", BROKEN)
        raise Closed("a message has too many fragments", TOO_LONG)

    def _frame(self, most: int) -> _Frame:
        first, second = self._read(2)
        is_masked, length = bool(second & 128), second & 127
        if length >= 126:
            length = int.from_bytes(self._read(2 if length == 126 else 8), "big")
        is_control = bool(first & 8)
        if first & 0x70 or is_masked is self._is_client or is_control and (length > CONTROL_BYTES or not first & 128):
            raise Closed("a frame that the standard forbids", BROKEN)
        if length > most and not is_control:
            raise Closed("a message is too long", TOO_LONG)
        mask = self._read(4) if is_masked else None
        return _Frame(bool(first & 128), first & 15, _masked(self._read(length), mask))

    def _read(self, length: int) -> bytes:
        data = self._reader.read(length) if length else b""
        if len(data) < length:
            raise Closed("the connection broke off")
        return data

    def _write(self, kind: int, data: bytes) -> None:
        length, bit = len(data), 128 if self._is_client else 0
        head = bytes([128 | kind])
        if length < 126:
            head += bytes([bit | length])
        elif length < 1 << 16:
            head += struct.pack(">BH", bit | 126, length)
        else:
            head += struct.pack(">BQ", bit | 127, length)
        mask = os.urandom(4) if self._is_client else None
        with self._lock:
            self._writer.write(head + (mask or b"") + _masked(data, mask))
            self._writer.flush()


def _masked(data: bytes, mask: Optional[bytes]) -> bytes:
    """The data under a mask of four bytes, which masks and unmasks."""
    if not mask or not data:
        return data
    whole = (mask * (len(data) // 4 + 1))[:len(data)]
    return (int.from_bytes(data, "big") ^ int.from_bytes(whole, "big")).to_bytes(len(data), "big")
