"""The messages of the base protocol: JSON after headers, of which `Content-Length` counts."""

from __future__ import annotations

import json
from typing import Any, BinaryIO, Dict, Optional

Message = Dict[str, Any]

# A message is no longer than this; one of a larger document is not read.
MOST_BYTES = 64 * 1024 * 1024
_PIECE = 1024 * 1024
_LONGEST_HEADER = 4_096
_MOST_DIGITS = 15

PARSE_ERROR = -32700
INVALID_REQUEST = -32600
METHOD_NOT_FOUND = -32601
INVALID_PARAMS = -32602
INTERNAL_ERROR = -32603
NOT_INITIALIZED = -32002
REQUEST_FAILED = -32803
REQUEST_CANCELLED = -32800
CONTENT_MODIFIED = -32801


class BrokenStream(Exception):
    """What was read has no message in it, and where the next one begins cannot be told."""


class ProtocolError(Exception):
    """Why a message has no result: a number of the protocol, and what is said."""

    def __init__(self, code: int, message: str) -> None:
        super().__init__(message)
        self.code = code


def read_body(stream: BinaryIO) -> Optional[bytes]:
    """The bytes of the next message, or nothing at the end of the stream."""
    length = None
    while True:
        line = stream.readline(_LONGEST_HEADER)
        if not line:
            return None
        if not line.endswith(b"\n"):
            raise BrokenStream("a header without an end")
        name, _, value = line.strip().partition(b":")
        if not name:
            break
        if name.strip().lower() == b"content-length":
            length = value.strip()
    if length is None or not length.isdigit() or len(length) > _MOST_DIGITS:
        raise BrokenStream("a message without a length")
    return _read_whole(stream, int(length))


def _read_whole(stream: BinaryIO, length: int) -> Optional[bytes]:
    """So many bytes, or nothing where the stream ends before; none of a message that is too long, which is left out."""
    left = length
    while left > 0 and length > MOST_BYTES:
        part = stream.read(min(left, _PIECE))
        if not part:
            return None
        left -= len(part)
    body = stream.read(left)
    return body if len(body) == left else None


def decoded(body: bytes) -> Message:
    """The message of these bytes. Raises ProtocolError where they are none."""
    try:
        message = json.loads(body.decode("utf-8"))
    except (ValueError, RecursionError) as error:
        raise ProtocolError(PARSE_ERROR, "the message is not JSON") from error
    if not isinstance(message, dict):
        raise ProtocolError(INVALID_REQUEST, "the message is no object")
    return message


def member(holder: Any, *names: str) -> Any:
    """What is under these names, each in the one before."""
    for name in names:
        holder = holder.get(name) if isinstance(holder, dict) else None
    return holder


def whole(holder: Any, name: str, least: int = 0) -> int:
    """A number of a message that counts something."""
    number = member(holder, name)
    if not isinstance(number, int) or isinstance(number, bool) or number < least:
        raise ProtocolError(INVALID_PARAMS, f"`{name}` is no number from {least} on")
    return number


def write_message(stream: BinaryIO, message: Message) -> None:
    body = json.dumps({"jsonrpc": "2.0", **message}, separators=(",", ":")).encode("ascii")
    stream.write(b"Content-Length: %d\r\n\r\n%s" % (len(body), body))
    stream.flush()
