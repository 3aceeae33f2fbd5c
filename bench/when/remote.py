"""A server of Prometheus's remote read, which has some samples of each metric and gives all of them: bench/when/README.md."""

from __future__ import annotations

import http.server
import re
import struct
import threading
from typing import Dict, Iterator, List, NamedTuple, Optional, Tuple, Union

# A field of a message: its number, and its value.
Field = Tuple[int, Union[int, bytes]]
OPERATORS = ("=", "!=", "=~", "!~")


class Stored(NamedTuple):
    """A series: its labels, and its samples with their times in milliseconds."""

    labels: Dict[str, str]
    samples: List[Tuple[int, float]]


class Read(NamedTuple):
    """What was asked for: a metric, from this millisecond through that."""

    name: str
    start: int
    end: int


class RemoteRead:
    """Serves the series of each metric on a free port of this machine, until it is ended."""

    def __init__(self, stored: Dict[str, List[Stored]]) -> None:
        self.stored = stored
        self.reads: List[Read] = []
        remote = self

        class Handler(http.server.BaseHTTPRequestHandler):
            protocol_version = "HTTP/1.1"

            def do_POST(self) -> None:
                body = compressed(remote.answer(uncompressed(self.rfile.read(int(self.headers["Content-Length"])))))
                self.send_response(200)
                for name, value in (("Content-Type", "application/x-protobuf"), ("Content-Encoding", "snappy"), ("Content-Length", str(len(body)))):
                    self.send_header(name, value)
                self.end_headers()
                self.wfile.write(body)

            def log_message(self, format: str, *args: object) -> None:
                pass

        self.server = http.server.ThreadingHTTPServer(("127.0.0.1", 0), Handler)
        self.thread = threading.Thread(target=self.server.serve_forever, daemon=True)
        self.thread.start()

    def settings(self) -> str:
        """What a Prometheus before it has in its configuration file."""
        return f"global: {{}}\nremote_read:\n  - url: http://127.0.0.1:{self.server.server_address[1]}/read\n    read_recent: true\n"

    def answer(self, request: bytes) -> bytes:
        """A `ReadResponse` to a `ReadRequest`."""
        return b"".join(message(1, self.results(bytes_of(query))) for number, query in fields(request) if number == 1)

    def results(self, query: bytes) -> bytes:
        """The series that the matchers of a query select, whatever its times are."""
        start, end = (whole(dict(fields(query)).get(number, 0)) for number in (1, 2))
        matchers = [matcher_of(bytes_of(it)) for number, it in fields(query) if number == 3]
        name = next(value for operator, label, value in matchers if (operator, label) == ("=", "__name__"))
        self.reads.append(Read(name, start, end))
        found = [it for it in self.stored.get(name, []) if it.samples and all(allows(m, it.labels) for m in matchers)]
        return b"".join(message(1, series(it)) for it in sorted(found, key=lambda it: sorted(it.labels.items())))

    def end(self) -> None:
        self.server.shutdown()
        self.server.server_close()
        self.thread.join(10)


def matcher_of(matcher: bytes) -> Tuple[str, str, str]:
    values = dict(fields(matcher))
    return OPERATORS[int(values.get(1, 0))], bytes_of(values[2]).decode(), bytes_of(values.get(3, b"")).decode()


def allows(matcher: Tuple[str, str, str], labels: Dict[str, str]) -> bool:
    operator, label, value = matcher
    text = labels.get(label, "")
    found = re.fullmatch(value, text) is not None if operator.endswith("~") else text == value
    return found != operator.startswith("!")


def series(stored: Stored) -> bytes:
    """A `TimeSeries`."""
    labels = b"".join(message(1, message(1, name.encode()) + message(2, value.encode())) for name, value in sorted(stored.labels.items()))
    samples = b"".join(message(2, b"\x09" + struct.pack("<d", value) + b"\x10" + varint(time)) for time, value in stored.samples)
    return labels + samples


# ---- messages of protocol buffers


def varint(number: int) -> bytes:
    number &= 2**64 - 1
    out = bytearray()
    while number >= 128:
        out.append(number & 127 | 128)
        number >>= 7
    out.append(number)
    return bytes(out)


def message(number: int, content: bytes) -> bytes:
    """A field that is a message or a text."""
    return varint(number << 3 | 2) + varint(len(content)) + content


def fields(content: bytes) -> Iterator[Field]:
    at = 0
    while at < len(content):
        tag, at = read_varint(content, at)
        if tag & 7 == 0:
            value, at = read_varint(content, at)
            yield tag >> 3, value
        elif tag & 7 == 2:
            size, at = read_varint(content, at)
            yield tag >> 3, content[at : at + size]
            at += size
        else:
            raise ValueError(f"a field of kind {tag & 7}")


def read_varint(content: bytes, at: int) -> Tuple[int, int]:
    number = shift = 0
    while True:
        number |= (content[at] & 127) << shift
        shift += 7
        at += 1
        if content[at - 1] < 128:
            return number, at


def whole(value: Union[int, bytes, None]) -> int:
    """A number that may be below 0."""
    assert isinstance(value, int)
    return value - 2**64 if value >= 2**63 else value


def bytes_of(value: Union[int, bytes, None]) -> bytes:
    assert isinstance(value, bytes)
    return value


# ---- snappy, in blocks


def compressed(content: bytes) -> bytes:
    """In parts as they are, which each reader takes."""
    out = [varint(len(content))]
    for at in range(0, len(content), 60_000):
        part = content[at : at + 60_000]
        out += [b"\xf4", struct.pack("<H", len(part) - 1), part]
    return b"".join(out)


def uncompressed(content: bytes) -> bytes:
    size, at = read_varint(content, 0)
    out = bytearray()
    while at < len(content):
        tag = content[at]
        at += 1
        if tag & 3 == 0:
            length, at = literal_length(content, tag, at)
            out += content[at : at + length]
            at += length
        else:
            length, offset, at = copy_of(content, tag, at)
            for _ in range(length):
                out.append(out[-offset])
    assert len(out) == size
    return bytes(out)


def literal_length(content: bytes, tag: int, at: int) -> Tuple[int, int]:
    if tag >> 2 < 60:
        return (tag >> 2) + 1, at
    more = (tag >> 2) - 59
    return int.from_bytes(content[at : at + more], "little") + 1, at + more


def copy_of(content: bytes, tag: int, at: int) -> Tuple[int, int, int]:
    if tag & 3 == 1:
        return (tag >> 2 & 7) + 4, (tag >> 5) << 8 | content[at], at + 1
    more = 2 if tag & 3 == 2 else 4
    return (tag >> 2) + 1, int.from_bytes(content[at : at + more], "little"), at + more


def widest(reads: List[Read]) -> Dict[str, Tuple[int, int]]:
    """For each metric the first and the last millisecond that was asked for."""
    found: Dict[str, Tuple[int, int]] = {}
    for read in reads:
        before: Optional[Tuple[int, int]] = found.get(read.name)
        found[read.name] = (min(before[0], read.start), max(before[1], read.end)) if before else (read.start, read.end)
    return found
