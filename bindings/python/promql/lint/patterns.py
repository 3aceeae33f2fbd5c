"""What can be told of a pattern: whether Prometheus reads it, and which texts it matches (docs/reference/matchers.md, "Patterns")."""

from __future__ import annotations

import re
from typing import List, Match, NamedTuple, Optional, Set, Tuple

# Characters of a text, times those of a pattern.
_MOST_STEPS = 1_000_000
_COUNT = re.compile(r"\{(?:0|[1-9]\d*)(?:,(?:0|[1-9]\d*)?)?\}")
_REPEAT = re.compile(r"[*+?]|\{\d+(?:,\d*)?\}")
# What means itself, outside of classes.
_LITERAL = re.compile(r"[^.^$()\[\]{}\\|*+?]|\\[^A-Za-z0-9<>\x80-\U0010ffff]")
_ESCAPE = re.compile(r"\\[pPx]\{[^}]*\}|\\[bB](\{[^}]*\})?|\\.", re.S)
_HAS_FLAGS = re.compile(r"\(\?[a-zA-Z-]")
_POSIX = re.compile(r"\[:\^?[a-z]+:\]")
# A count in the crate `regex` and not in Go: with white space, or with zeros before it.
SPACED_COUNT = re.compile(r"\{(?:\s+\d+\s*|\s*\d+\s+|0\d+)(?:,\s*\d*\s*)?\}|\{\d+,(?:\s+\d*\s*|\d*\s+|0\d+)\}")


def literal(pattern: str) -> Optional[str]:
    """The only text that a pattern matches, where it is spelled in the pattern."""
    parts, at = [], 0
    while at < len(pattern):
        found = _LITERAL.match(pattern, at)
        if not found:
            return None
        parts.append(found[0][-1])
        at = found.end()
    return "".join(parts)


def branches(pattern: str) -> Optional[List[str]]:
    """The alternatives of a pattern, or nothing where it has groups or classes."""
    parts: List[List[str]] = [[]]
    for piece in re.findall(r"\\.|.", pattern, re.S):
        if piece in "()[":
            return None
        if piece == "|":
            parts.append([])
        else:
            parts[-1].append(piece)
    return ["".join(part) for part in parts]


def without_anchors(pattern: str) -> str:
    """The pattern without `^` at its begin and `$` at its end, where they mean nothing: a matcher's pattern has to match all of a text."""
    if _HAS_FLAGS.search(pattern):
        return pattern
    if pattern.startswith("^") and not _REPEAT.match(pattern, 1):
        pattern = pattern[1:]
    if pattern.endswith("$") and len(pattern) - len(pattern[:-1].rstrip("\\")) - 1 in range(0, len(pattern), 2):
        pattern = pattern[:-1]
    return pattern


def matches_everything(pattern: str) -> bool:
    parts = branches(without_anchors(pattern))
    return parts is not None and any(part in (".*", ".*?") for part in parts)


def matches(pattern: str, text: str) -> Optional[bool]:
    """Whether a pattern matches a text, where its items are characters and points, each with or without `*`, `+` or `?`."""
    parts = branches(pattern)
    if parts is None or "\n" in text or len(pattern) * len(text) > _MOST_STEPS:
        return None
    read = [_items(part) for part in parts]
    answers = [None if items is None else _match(items, text) for items in read]
    return True if True in answers else None if None in answers else False


class _Item(NamedTuple):
    """A character, or any where it is empty; whether it may be left out, and whether it may be there again."""

    character: str
    is_optional: bool
    is_repeated: bool


def _items(part: str) -> Optional[List[_Item]]:
    """The items of a part of a pattern, if all are simple."""
    items: List[_Item] = []
    at = 0
    while at < len(part):
        found = _LITERAL.match(part, at)
        if not found and part[at] != ".":
            return None
        at = found.end() if found else at + 1
        repeat = part[at : at + 1]
        items.append(_Item(found[0][-1] if found else "", repeat in ("*", "?"), repeat in ("*", "+")))
        at += repeat in ("*", "+", "?") and bool(repeat)
        if _REPEAT.match(part, at):
            return None
    return items


def _match(items: List[_Item], text: str) -> bool:
    """Whether items match all of a text: which of them may come next is told character by character."""
    places = _onward({0}, items)
    for character in text:
        read = {at for at in places if at < len(items) and items[at].character in ("", character)}
        places = _onward({at + 1 for at in read} | {at for at in read if items[at].is_repeated}, items)
    return len(items) in places


def _onward(places: Set[int], items: List[_Item]) -> Set[int]:
    """The places, and those after items that may be left out."""
    found = set(places)
    todo = list(places)
    while todo:
        at = todo.pop()
        if at < len(items) and items[at].is_optional and at + 1 not in found:
            found.add(at + 1)
            todo.append(at + 1)
    return found


def difference(pattern: str) -> str:
    """How Prometheus, whose patterns are those of Go, reads a pattern otherwise than it is read here; or nothing."""
    at = 0
    while at < len(pattern):
        if pattern[at] == "[":
            end, why = _class_at(pattern, at)
        else:
            end, why = at + 1, ""
            escape = _ESCAPE.match(pattern, at)
            if escape:
                end, why = escape.end(), _of_escape(escape)
            elif spaced := SPACED_COUNT.match(pattern, at):
                why = f"`{spaced[0]}` is no count there, but means itself"
        if why:
            return why
        at = end
    return ""


def _of_escape(escape: Match[str]) -> str:
    if escape[0] in (r"\<", r"\>"):
        return f"`{escape[0]}` is the character `{escape[0][1]}` there, and an edge of a word here"
    if escape[1] and not _COUNT.fullmatch(escape[1]):
        return f"`{escape[1]}` means itself there, and is a part of `{escape[0][:2]}` here"
    return ""


def _class_at(pattern: str, at: int) -> Tuple[int, str]:
    """Where a class ends, and what is otherwise in it."""
    begin = at
    at += 2 if pattern.startswith("[^", at) else 1
    first = at
    while at < len(pattern):
        if found := _POSIX.match(pattern, at) or _ESCAPE.match(pattern, at):
            at = found.end()
        elif pattern[at] == "]" and at > first:
            break
        elif pattern.startswith(("&&", "~~"), at) or pattern.startswith("--", at) and at > first:
            return at, f"`{pattern[at : at + 2]}` in a class is an operator here, and none there"
        elif pattern[at] == "[":
            return at, f"`[` in the class `{pattern[begin : at]}..` opens another class here, and means itself there"
        else:
            at += 1
    return at + 1, ""
