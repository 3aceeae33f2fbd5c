"""Text files: reading them, places and lines in them, and writing them whole or not at all."""

from __future__ import annotations

import errno
import os
import re
import signal
import stat
import sys
from array import array
from bisect import bisect_left
from contextlib import contextmanager
from functools import cached_property, lru_cache
from importlib.util import find_spec
from typing import Iterator, List, NamedTuple, Optional, Tuple

from .terminal import visible

_BREAK = re.compile(r"\r\n|\r|\n")
# Characters between two places whose lines are known.
_STEP = 1_024


class LineIndex:
    """The lines of a text, which end with a line feed, a carriage return or both. What is between two known places is looked at when it
    is asked for."""

    def __init__(self, text: str) -> None:
        self._text = text
        self._has_returns = "\r" in text
        # For each step how many lines begin before it, and where the last one of them does.
        self._counts = array("Q", [0])
        self._begins = array("Q", [0])
        count = begin = 0
        for start in range(0, len(text), _STEP):
            count += self._breaks(start, min(start + _STEP, len(text)))
            begin = self._last_begin(start, start + _STEP, begin)
            self._counts.append(count)
            self._begins.append(begin)

    def line(self, offset: int) -> int:
        """The number of the line that has a character, from 0."""
        step = offset // _STEP
        return self._counts[step] + self._breaks(step * _STEP, offset)

    def begin(self, offset: int) -> int:
        """Where the line of a character begins."""
        step = offset // _STEP
        return self._last_begin(step * _STEP, offset, self._begins[step])

    def end(self, offset: int, most: int) -> int:
        """Where the line of a character ends, or `most`, where that comes first."""
        found = self._text.find("\n", offset, most)
        end = found if found >= 0 else min(most, len(self._text))
        found = self._text.find("\r", offset, end) if self._has_returns else -1
        return found if found >= 0 else end

    def place(self, offset: int) -> Tuple[int, int]:
        """The line and the column of a character, from 1."""
        return self.line(offset) + 1, offset - self.begin(offset) + 1

    def line_begin(self, line: int) -> int:
        """Where the line of this number begins, from 0; the end of the text, where there are not so many."""
        if line <= 0:
            return 0
        # (the last step before which fewer lines begin)
        step = bisect_left(self._counts, line) - 1
        begins = self._begins_between(step * _STEP, min((step + 1) * _STEP, len(self._text)))
        rest = line - self._counts[step]
        return begins[rest - 1] if rest <= len(begins) else len(self._text)

    def _breaks(self, start: int, end: int) -> int:
        """How many lines begin after the first of these places, up to the last one. (A carriage return begins one if no line feed is
        after it, which may be the next character after the part.)"""
        count = self._text.count("\n", start, end)
        if self._has_returns:
            count += self._text.count("\r", start, end) - self._text.count("\r\n", start, end + 1)
        return count

    def _last_begin(self, start: int, end: int, before: int) -> int:
        """The last of the places after the first and up to the second where a line begins, or the one before."""
        at = self._text.rfind("\n", start, end)
        if self._has_returns:
            back = self._text.rfind("\r", start, end)
            while back > at and self._text[back + 1 : back + 2] == "\n":
                back = self._text.rfind("\r", start, back)
            at = max(at, back)
        return at + 1 if at >= 0 else before

    def _begins_between(self, start: int, end: int) -> List[int]:
        """The places where lines begin by a break in this part."""
        found = [it.end() for it in _BREAK.finditer(self._text, start, min(end + 1, len(self._text)))]
        return [at for at in found if start < at <= end]


STDIN = "-"
# (a line feed after a carriage return begins no other break, so that a run of them is read in one way alone)
BREAK = r"(?:\r\n|\r(?!\n)|\n)"
BLANKS = " \t\r\n"
# A longer line is shown in part.
_LONGEST_LINE = 160
_BYTE_ORDER_MARK = "\ufeff"
# What is null in YAML where it is plain, and what is no text there, or may be more than one.
NULLS = ("", "~", "null", "Null", "NULL")
NO_TEXTS = frozenset((*NULLS, "<<", "="))
_BLOCK_COMMENT = re.compile("[|>][-+0-9]*#")


class FileError(Exception):
    """Why nothing is done with a file: what is printed of it; where it has a place, that and the message; and the status for it."""

    source: Optional[Source] = None
    span: Optional[Tuple[int, int]] = None
    message = ""

    def __init__(self, shown: str, number: int = 2) -> None:
        super().__init__(shown)
        self.number = number

    @property
    def reason(self) -> str:
        return self.message or str(self)

    @classmethod
    def at(cls, source: Source, fault: Fault) -> FileError:
        """The error that this is wrong with a file."""
        error = cls(source.shown(fault), fault.number or 2)
        error.source, error.span, error.message = source, (fault.start, fault.end), fault.message
        return error


class BoundError(FileError):
    """A file has more than is looked at."""

    @classmethod
    def of(cls, source: Source, at: int, message: str) -> FileError:
        return cls.at(source, Fault(at, at, f"not looked at: {message}"))


def nested_too_deeply(name: str) -> FileError:
    return FileError(f"{name}: nested too deeply")


class NoReaderError(FileError):
    """There is no ruamel.yaml."""


@lru_cache(maxsize=1)
def look_for_reader() -> None:
    """Says so where there is no ruamel.yaml. (The folders of packages are looked through once.)"""
    if not find_spec("ruamel") or not find_spec("ruamel.yaml"):
        raise NoReaderError("rule files need ruamel.yaml: install python3-ruamel.yaml, or `pip install ruamel.yaml`")


class Unclear(Exception):
    """A quick reader does not take this text: where it is so, and why; there is none where it says nothing."""

    def __init__(self, at: int = 0, why: str = "libyaml may read this otherwise") -> None:
        self.at, self.why = at, why


def surely(is_so: object) -> None:
    """Raises where something is not surely so."""
    if not is_so:
        raise Unclear


def is_usual(text: str) -> bool:
    """Whether a text surely has nothing unusual (`quick_yaml`), which is seen sooner of most than what is there."""
    begins_lines = text.startswith(("%", "...")) or "\n%" in text or "\n..." in text
    return not begins_lines and text.replace("\n", "").isprintable() and ("#" not in text or not _BLOCK_COMMENT.search(text))


class Fault(NamedTuple):
    """What is wrong with the part `text[start:end]` of a file."""

    start: int
    end: int
    message: str
    # The number of the error, where a query is rejected (docs/reference/programs.md, "Numbers of errors").
    number: int = 0


class Source(NamedTuple("Source", [("name", str), ("text", str), ("mark", str)])):
    """A file that was read: its text has the line ends of the file, and not its byte order mark."""

    @property
    def data(self) -> bytes:
        """What the file had."""
        return (self.mark + self.text).encode()

    @cached_property
    def lines(self) -> LineIndex:
        return LineIndex(self.text)

    def located(self, fault: Fault) -> str:
        """`FILE:LINE:COLUMN: message`; lines and columns count from 1, and a column is a character."""
        line, column = self.lines.place(fault.start)
        return f"{visible(self.name)}:{line}:{column}: {visible(fault.message)}"

    def shown(self, fault: Fault) -> str:
        """The same, the line where the fault begins, and a mark below the part that it is about."""
        begin = self.lines.begin(fault.start)
        end = self.lines.end(fault.start, max(begin, fault.start - _LONGEST_LINE // 2) + _LONGEST_LINE + 1)
        if end - begin > _LONGEST_LINE:
            begin = max(begin, fault.start - _LONGEST_LINE // 2)
            end = min(end, begin + _LONGEST_LINE)
        blank = re.sub(r"[^\t]", " ", _shown(self.text[begin : fault.start]))
        mark = "^".ljust(len(_shown(self.text[fault.start : min(fault.end, end)])), "~")
        return f"{self.located(fault)}\n{_shown(self.text[begin:end])}\n{blank}{mark}"


def _shown(line: str) -> str:
    """A line of a file, or a part of it, with its tabs."""
    return visible(line, "\t")


def counted(number: int, one: str, many: str) -> str:
    """So many things by their name."""
    return f"{number or 'no'} {one if number == 1 else many}"


def read_source(name: str) -> Source:
    """Reads a file, or standard input."""
    try:
        data = sys.stdin.buffer.read() if name == STDIN else _read_bytes(name)
        return _source(name, data.decode())
    except OSError as error:
        raise FileError(f"{name}: {error.strerror}") from error
    except UnicodeDecodeError as error:
        before = _source(name, data[: error.start].decode())
        at = len(before.text)
        raise FileError.at(before, Fault(at, at, f"not UTF-8 at byte {error.start}", 3)) from error


def _source(name: str, text: str) -> Source:
    mark = _BYTE_ORDER_MARK if text.startswith(_BYTE_ORDER_MARK) else ""
    return Source("<stdin>" if name == STDIN else name, text[len(mark) :], mark)


def _read_bytes(name: str) -> bytes:
    """What a file has. A named pipe that nobody writes into has nothing, and is not waited for."""
    descriptor = os.open(name, os.O_RDONLY | os.O_NONBLOCK | os.O_CLOEXEC)
    with open(descriptor, "rb", buffering=0) as file:
        os.set_blocking(descriptor, True)
        return file.read()


# Those that tell of an error of the process itself cannot wait.
_AT_ONCE = {signal.SIGSEGV, signal.SIGBUS, signal.SIGFPE, signal.SIGILL, signal.SIGABRT}


@contextmanager
def _signals_wait() -> Iterator[None]:
    """No signal that can wait ends the process meanwhile."""
    before = signal.pthread_sigmask(signal.SIG_BLOCK, signal.valid_signals() - _AT_ONCE)
    try:
        yield
    finally:
        signal.pthread_sigmask(signal.SIG_SETMASK, before)


def write_file(source: Source, data: bytes) -> None:
    """Replaces what a file has, whole: until then it is as it was, and after an error too, and after a signal that can be caught.

    A file that has other bytes than those that were read is left as it is, and so is one that a new file cannot stand for.
    """
    try:
        with _signals_wait():
            _replace_file(source, data)
    except OSError as why:
        raise FileError(f"{source.name}: {why.strerror}", 5) from why


def _replace_file(source: Source, data: bytes) -> None:
    path = os.path.realpath(source.name)
    status = os.stat(path)
    _look_at_kind(source.name, status)
    if not os.access(path, os.W_OK):
        raise PermissionError(errno.EACCES, os.strerror(errno.EACCES), source.name)
    # (importing it takes longer than a small file to check)
    import tempfile
    descriptor, temporary = tempfile.mkstemp(prefix=".promql-", dir=os.path.dirname(path))
    try:
        with open(descriptor, "wb") as file:
            file.write(data)
            file.flush()
            if (status.st_uid, status.st_gid) != (os.geteuid(), os.getegid()):
                os.fchown(descriptor, status.st_uid, status.st_gid)
            os.fchmod(descriptor, status.st_mode & 0o7777)
            for attribute in os.listxattr(path):
                os.setxattr(descriptor, attribute, os.getxattr(path, attribute))
            os.fsync(descriptor)
        if _read_bytes(path) != source.data:
            raise FileError(f"{source.name}: left as it is: it was changed meanwhile")
        os.replace(temporary, path)
    except BaseException:
        os.unlink(temporary)
        raise


def _look_at_kind(name: str, status: os.stat_result) -> None:
    if not stat.S_ISREG(status.st_mode):
        raise FileError(f"{name}: left as it is: it is no regular file")
    if status.st_nlink > 1:
        names = counted(status.st_nlink - 1, "other name", "other names")
        raise FileError(f"{name}: left as it is: it has {names}, which would keep the old text")
