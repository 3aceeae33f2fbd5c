"""The queries of a file, with the place of each of their characters."""

from __future__ import annotations

from array import array
from typing import TYPE_CHECKING, Callable, Iterable, List, NamedTuple, Optional, Protocol, Sequence

import promql

from ._answers import Status
from .files import BLANKS, Fault

if TYPE_CHECKING:
    from .grafana_variables import Variables

SameQuery = Callable[[str, str], bool]


class Edit(NamedTuple):
    """A text in place of the part `text[start:end]` of a file."""

    start: int
    end: int
    text: str


class PlacedText:
    """A text that is put together of parts of a file, with the place of each character there."""

    def __init__(self) -> None:
        self._parts: List[str] = []
        # (a list of numbers has five times as many bytes)
        self.offsets: array[int] = array("L")

    @property
    def text(self) -> str:
        self._parts = ["".join(self._parts)]
        return self._parts[0]

    def put(self, text: str, offset: int) -> None:
        """Adds a text which the file has at this place, character by character."""
        self._parts.append(text)
        self.offsets.extend(range(offset, offset + len(text)))

    def put_each(self, text: str, offsets: Iterable[int]) -> None:
        """Adds a text whose characters are in these places."""
        self._parts.append(text)
        self.offsets.extend(offsets)

    def copy(self, other: PlacedText, start: int, end: int) -> None:
        self._parts.append(other.text[start:end])
        self.offsets.extend(other.offsets[start:end])


class Spelling(Protocol):
    """How a file spells a query."""

    def room(self, width: int) -> int:
        """How wide the query may be in a file of this width, on one line."""

    def room_of_lines(self, width: int) -> int:
        """How wide the lines of the query may be there, if it has several."""

    def edit(self, text: str) -> Edit:
        """What writes this query there instead."""


class Query(NamedTuple):
    """A query of a file."""

    # As it is checked.
    value: str
    # Of each character of the value, and of its end.
    offsets: Sequence[int]
    spelling: Spelling
    # Why it is neither checked nor formatted, or why it is not formatted.
    skipped: str = ""
    kept: str = ""
    # What stands in it for the variables that its file has there.
    variables: Optional[Variables] = None
    # Of one that is skipped: whether it may be a query of Prometheus all the same.
    is_unread: bool = False

    @property
    def text(self) -> str:
        return self.value.rstrip(BLANKS)

    @property
    def laid_out(self) -> str:
        """The query as it is to be laid out."""
        return self.variables.text.rstrip(BLANKS) if self.variables else self.text

    @property
    def original(self) -> str:
        """The query as the file has it."""
        return self.variables.original if self.variables else self.value

    def fault(self, start: int, end: int, message: str) -> Fault:
        """A fault of the part `text[start:end]` of the query."""
        return Fault(self.offsets[start], self.offsets[end], message)

    def whole(self, message: str) -> Fault:
        return self.fault(0, len(self.text), message)

    def rejected(self, error: ValueError, is_explained: bool = True) -> Fault:
        """The fault of a query for which a function of the package raised this, with what was expected there or without."""
        if isinstance(error, UnicodeEncodeError):
            return self.fault(error.start, error.end, "half of a surrogate pair")._replace(number=Status.NOT_UTF8)
        fault = self.whole(str(error))
        if isinstance(error, promql.QueryError):
            message = error.message if is_explained else error.reason
            fault = self.fault(error.start, error.end, self.variables.put_back(message) if self.variables else message)
        return fault._replace(number=getattr(error, "number", 0) or Status.REJECTED)


def edited(text: str, edits: Iterable[Edit]) -> str:
    """A text with its parts replaced, none of which overlaps another."""
    at, parts = 0, []
    for edit in sorted(edits):
        parts += [text[at : edit.start], edit.text]
        at = edit.end
    return "".join([*parts, text[at:]])
