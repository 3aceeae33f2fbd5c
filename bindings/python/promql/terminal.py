"""Texts for people: what a terminal would obey as an escape, colours of messages, and how far a command is with its files."""

from __future__ import annotations

import os
import re
import signal
import time
from contextlib import suppress
from functools import partial
from typing import Any, Iterable, Iterator, Sequence, TextIO, Tuple, TypeVar


def visible(text: str, kept: str = "") -> str:
    """The text with each character that has no picture of its own, such as a control character or a mark of writing direction, as an
    escape, but for those to be kept: `\\x1b`, `\\u{202e}`."""
    rest = text
    for character in kept:
        rest = rest.replace(character, "")
    # (mostly there is none, and each character is looked at by itself only then)
    if rest.isprintable():
        return text
    return "".join(it if it.isprintable() or it in kept else _escape(ord(it)) for it in text)


def _escape(code: int) -> str:
    return f"\\x{code:02x}" if code < 0x100 else f"\\u{{{code:x}}}"


_PLACE = re.compile(r"(.*?:\d+:\d+): (warning: |skipped: |not enforced: )?")
_MARK = re.compile(r"(\s*)(\^~*)")
_BOLD, _MAGENTA, _GREEN, _END = "\x1b[1m", "\x1b[35m", "\x1b[1;32m", "\x1b[0m"


def add_color_argument(parser: Any) -> None:
    when = "colours of messages: always, never, or on a terminal, where NO_COLOR is not set (auto)"
    parser.add_argument("--color", choices=("auto", "always", "never"), default="auto", metavar="WHEN", help=when)


def wants_colors(when: str, stream: TextIO) -> bool:
    """Whether messages on this stream are to have colours."""
    if when != "auto":
        return when == "always"
    return not os.environ.get("NO_COLOR") and os.environ.get("TERM") != "dumb" and stream.isatty()


def painted(message: str) -> str:
    """A message with colours for its places and its marks. The line of a file, which is before a mark, has none."""
    lines = message.split("\n")
    is_mark = [_MARK.fullmatch(line) for line in lines]
    for number, line in enumerate(lines):
        mark, place = is_mark[number], _PLACE.match(line)
        if mark:
            lines[number] = f"{mark[1]}{_GREEN}{mark[2]}{_END}"
        elif place and not any(is_mark[number + 1 : number + 2]):
            kind = f"{_MAGENTA}{place[2]}{_END}" if place[2] else ""
            lines[number] = f"{_BOLD}{place[1]}:{_END} {kind}{line[place.end() :]}"
    return "\n".join(lines)


_PATIENCE, _SOON = 1.0, 0.001
_CLEAR = "\r\x1b[K"
Made = TypeVar("Made")


def with_progress(names: Sequence[str], made: Iterable[Made], stream: TextIO) -> Iterator[Tuple[str, Made]]:
    """The names with what is made of them; and on a terminal, while one is awaited, a line that tells which."""
    if not stream.isatty() or os.environ.get("TERM") == "dumb":
        yield from zip(names, made)
        return
    import shutil
    rest, end = iter(made), time.monotonic() + _PATIENCE
    for number, name in enumerate(names, 1):
        line = f"{number} of {len(names)}: {visible(name)}"[: shutil.get_terminal_size().columns - 1]
        signal.signal(signal.SIGALRM, partial(_write, stream.fileno(), line))
        signal.setitimer(signal.ITIMER_REAL, max(end - time.monotonic(), _SOON))
        one = next(rest)
        signal.setitimer(signal.ITIMER_REAL, 0)
        if time.monotonic() > end:
            _write(stream.fileno(), _CLEAR)
        yield name, one


def _write(terminal: int, text: str, *_signal: object) -> None:
    # (a terminal that is gone ends no work)
    with suppress(OSError):
        os.write(terminal, text.encode("utf-8", "backslashreplace"))
