"""Whether the package `regexp` of Go rejects a pattern, as Prometheus does then: that of Go 1.19, of which Prometheus 2.42 is made."""

from __future__ import annotations

import re
from typing import List, Set

from ._target_tables import GO_ASSERTIONS, GO_CATEGORIES, GO_CHARACTERS, GO_CLASSES, GO_FLAGS, GO_MOST, GO_POSIX, GO_SCRIPTS

_UNICODE_CLASSES = frozenset(f"{GO_CATEGORIES} {GO_SCRIPTS}".split())
_ASSERTIONS, _CLASSES = frozenset(GO_ASSERTIONS), frozenset(GO_CLASSES)
_COUNT = re.compile(r"\{(0|[1-9][0-9]*)(?:(,)(0|[1-9][0-9]*)?)?\}")
_NAMED = re.compile(r"\(\?P<([^>]*)>")
_FLAGS = re.compile(r"\(\?([a-zA-Z-]*)([:)]?)")
_KNOWN_FLAGS = re.compile(f"[{GO_FLAGS}]*(?:-[{GO_FLAGS}]+)?")
_HEXADECIMAL = re.compile(r"\{([0-9a-fA-F]+)\}|[0-9a-fA-F]{2}")
_OCTAL = re.compile(r"0[0-7]{0,2}|[1-7][0-7]{1,2}")
_UNICODE = re.compile(r"[pP](?:\{\^?([^}]*)\}|([^{]))", re.S)
_LAST_CHARACTER = 0x10FFFF


class GoError(Exception):
    """Why Go rejects a pattern."""


def why_rejected(pattern: str) -> str:
    """Why Go rejects a pattern, or nothing where it reads it."""
    try:
        _Reader(pattern).read()
    except GoError as error:
        return str(error)
    return ""


class _Reader:
    """Reads a pattern item by item."""

    def __init__(self, pattern: str) -> None:
        self._pattern = pattern
        self._at = 0
        # Of each group that is open, and of the whole: how often its items are repeated at most.
        self._counts: List[int] = [1]
        # The same without the last item, and that of the last item; 0 where there is none to repeat.
        self._before = 1
        self._last = 0
        self._names: Set[str] = set()

    def read(self) -> None:
        was_repeat = False
        while self._at < len(self._pattern):
            is_repeat = self._repeat(was_repeat)
            if not is_repeat:
                self._item()
            was_repeat = is_repeat
        if len(self._counts) > 1:
            raise GoError("a group is not closed")

    def _rest(self, *texts: str) -> bool:
        return self._pattern.startswith(texts, self._at)

    def _item(self) -> None:
        if self._rest("("):
            self._open()
        elif self._rest(")"):
            self._close()
        elif self._rest("|"):
            self._at += 1
            self._last = 0
        else:
            self._before, self._last = self._counts[-1], 1
            if self._rest("["):
                self._class()
            elif self._rest("\\"):
                self._escape()
            else:
                self._at += 1

    # ---- repetitions

    def _repeat(self, was_repeat: bool) -> bool:
        """Reads a repetition, where there is one."""
        count = _COUNT.match(self._pattern, self._at)
        if not count and not self._rest("*", "+", "?"):
            return False
        text = count[0] if count else self._pattern[self._at]
        self._at += len(text)
        if self._rest("?"):
            self._at += 1
        least = int(count[1]) if count else 0
        most = (int(count[3]) if count[3] else -1 if count[2] else least) if count else -1
        if least > GO_MOST or most > GO_MOST or 0 <= most < least:
            raise GoError(f"`{text}` is more than 1,000 times, or turned round")
        if not self._last:
            raise GoError(f"`{text}` has nothing to repeat")
        if was_repeat:
            raise GoError(f"`{text}` repeats what is repeated")
        if count:
            self._multiply(text, least, most)
        return True

    def _multiply(self, text: str, least: int, most: int) -> None:
        times = most if most >= 0 else least
        # (what is repeated 0 times is not looked at)
        self._last = 1 if most == 0 else self._last * max(times, 1)
        if self._last > GO_MOST and (least >= 2 or most >= 2):
            raise GoError(f"with `{text}` its counts multiply to {self._last:,}, above 1,000")
        self._counts[-1] = max(self._before, self._last)

    # ---- groups

    def _open(self) -> None:
        named = _NAMED.match(self._pattern, self._at)
        if named:
            if not re.fullmatch(r"\w+", named[1], re.ASCII) or named[1] in self._names:
                raise GoError(f"the name of the group `{named[1]}` is wrong, or there before")
            self._names.add(named[1])
            self._at = named.end()
        elif self._rest("(?"):
            flags = _FLAGS.match(self._pattern, self._at)
            if not flags or not flags[2] or not _KNOWN_FLAGS.fullmatch(flags[1]):
                raise GoError(f"it knows no `{self._pattern[self._at : self._at + 4]}`")
            self._at = flags.end()
            if flags[2] == ")":
                return
        else:
            self._at += 1
        self._counts.append(1)
        self._last = 0

    def _close(self) -> None:
        if len(self._counts) == 1:
            raise GoError("a `)` too many")
        self._at += 1
        self._last = self._counts.pop()
        self._before = self._counts[-1]
        self._counts[-1] = max(self._before, self._last)

    # ---- escapes and classes

    def _escape(self) -> None:
        """An escape outside of classes."""
        if self._pattern[self._at + 1 : self._at + 2] in _ASSERTIONS:
            self._at += 2
        elif self._rest(r"\Q"):
            end = self._pattern.find(r"\E", self._at)
            self._at = len(self._pattern) if end < 0 else end + 2
        elif not self._class_escape():
            self._character()

    def _class_escape(self) -> bool:
        """Reads an escape that is a class, where there is one."""
        if self._rest("\\") and self._pattern[self._at + 1 : self._at + 2] in _CLASSES:
            self._at += 2
            return True
        if not self._rest(r"\p", r"\P"):
            return False
        found = _UNICODE.match(self._pattern, self._at + 1)
        name = (found[1] or found[2] or "") if found else ""
        if not found or name not in _UNICODE_CLASSES:
            raise GoError(f"it knows no class `\\p{{{name}}}` of Unicode")
        self._at = found.end()
        return True

    def _character(self) -> str:
        """Reads a character or its escape, and returns it."""
        if self._at >= len(self._pattern):
            raise GoError("a class is not closed")
        self._at += 1
        character = self._pattern[self._at - 1]
        if character != "\\":
            return character
        letter = self._pattern[self._at : self._at + 1]
        for form, base in ((_OCTAL, 8), (_HEXADECIMAL, 16)):
            found = form.match(self._pattern, self._at + (base == 16))
            if found and (base == 8 or letter == "x"):
                self._at = found.end()
                code = int(found[0].strip("{}"), base)
                if code > _LAST_CHARACTER:
                    raise GoError(f"there is no character {code:x}")
                return chr(code)
        if not letter or letter not in GO_CHARACTERS and (not letter.isascii() or letter.isalnum()):
            raise GoError(f"it knows no `\\{letter}`")
        self._at += 1
        return letter.translate(str.maketrans(GO_CHARACTERS, "\a\f\n\r\t\v"))

    def _class(self) -> None:
        self._at += 2 if self._rest("[^") else 1
        first = True
        while first or not self._rest("]"):
            first = False
            end = self._pattern.find(":]", self._at + 2) if self._rest("[:") else -1
            if end >= 0:
                if self._pattern[self._at + 2 + self._rest("[:^") : end] not in GO_POSIX.split():
                    raise GoError(f"it knows no class `{self._pattern[self._at : end + 2]}`")
                self._at = end + 2
            elif not self._class_escape():
                self._range()
        self._at += 1

    def _range(self) -> None:
        begin, low = self._at, self._character()
        if self._rest("-") and not self._rest("-]") and self._at + 1 < len(self._pattern):
            self._at += 1
            if self._character() < low:
                raise GoError(f"`{self._pattern[begin : self._at]}` is no range")
