"""Places of a text: offsets of characters, and the lines and UTF-16 units that editors count."""

from __future__ import annotations

import re
from typing import Any, Dict, Tuple

from ..files import LineIndex
from .messages import INVALID_PARAMS, ProtocolError, whole

_WIDE = re.compile("[\U00010000-\U0010ffff]")

Range = Dict[str, Dict[str, int]]


class Lines(LineIndex):
    """The lines of a text, with the places that the protocol has for them."""

    def __init__(self, text: str) -> None:
        super().__init__(text)
        self.text = text
        # (most texts have no character of two units, and then units are characters)
        self._is_narrow = text.isascii() or not _WIDE.search(text)
        # (and without carriage returns no place is within a line's end)
        self._is_plain = self._is_narrow and "\r" not in text

    def point(self, offset: int) -> Tuple[int, int]:
        """The line of a character, and the UTF-16 units before it there."""
        offset = min(max(offset, 0), len(self.text))
        begin = self.begin(offset)
        end = offset if self._is_plain else self.end(begin, offset)
        return self.line(offset), end - begin if self._is_narrow else units(self.text[begin:end])

    def position(self, offset: int) -> Dict[str, int]:
        line, character = self.point(offset)
        return {"line": line, "character": character}

    def range(self, start: int, end: int) -> Range:
        return {"start": self.position(start), "end": self.position(end)}

    def offset(self, position: Any) -> int:
        """The offset of a position. One past a line's end is the end of that line, one past the last line the text's end."""
        line, character = whole(position, "line"), whole(position, "character")
        begin = self.line_begin(line)
        end = self.end(begin, len(self.text))
        if self._is_narrow:
            return min(begin + character, end)
        at = begin
        while at < end and character > 0:
            character -= 2 if self.text[at] > "\uffff" else 1
            # (within a character of two units is before it)
            at += character >= 0
        return at

    def span(self, given: Any) -> Tuple[int, int]:
        """The offsets of a range."""
        if not isinstance(given, dict):
            raise ProtocolError(INVALID_PARAMS, "no range")
        start, end = self.offset(given.get("start")), self.offset(given.get("end"))
        return min(start, end), max(start, end)


def units(text: str) -> int:
    """How many UTF-16 units a text has."""
    return len(text) + len(_WIDE.findall(text))
