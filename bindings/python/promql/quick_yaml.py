"""YAML by libyaml: some ten times quicker than `exact_yaml`, for texts that both are known to read alike. Its events make the nodes here, so
nothing recurses. What is unusual in a text, or wrong, is left to `exact_yaml`, which then says what there is to say."""

from __future__ import annotations

import re
from bisect import bisect_right
from functools import lru_cache
from typing import Any, Dict, Iterable, List, Match, Tuple

from .checked_queries import FileBounds
from .files import BoundError, Source, Unclear, surely
from .scalars import Node, Token
from .yaml_events import MOST_LEVELS, Event, events_of

# Tags with a meaning for these tools, by which both readers call a value. Most have no effect.
_TAGS = frozenset(f"tag:yaml.org,2002:{name}" for name in "str int float bool timestamp null seq map".split())
# An anchor or a tag, and what may be after it.
_PROPERTY = re.compile(r"(?:&[\w-]+|!![a-z]+)(?:[ \r\n]+|$)", re.ASCII)
_AFTER_NAMES = ("", " ", "\n", "\r", ",", "]", "}")
_VALUE = re.compile(r"[ \r\n]*:")


class QuickYaml:
    """A text as libyaml reads it, where nothing in it is unusual."""

    def __init__(self, source: Source, most_nodes: int = FileBounds().max_file_nodes) -> None:
        self._source, self._text = source, source.text
        self._most = self.nodes_left = most_nodes
        self.roots: List[Node] = []
        self.has_aliases = False
        self._anchors: Dict[str, Node] = {}
        # The nodes of the collections that are not at their end yet, the outermost ones first, and the collections.
        self._items: List[List[Node]] = [self.roots]
        self._open: List[Node] = []
        self._flows = 0
        self._scalars: List[_Span] = []
        self._read(events_of(source.text, most_nodes))
        if "\t" in source.text and not _are_clear_tabs(source.text, self._scalars):
            raise Unclear(source.text.index("\t"))

    def refuse(self) -> None:
        """Raises, since the other reader may know better."""
        raise Unclear

    def token(self, key: Node, value: Node) -> Token:
        """The place of a scalar that is the value of this key."""
        start, sign = value.start, _VALUE.match(self._text, key.end)
        # (what an alias stands for is before its key, and has an anchor)
        is_alias = start < key.start and value.anchor
        surely(is_alias or not key.anchor and not key.tag and sign and sign.end() <= start)
        before = sign.end() if sign else start
        for _ in filter(None, (value.anchor, value.tag)):
            part = _PROPERTY.match(self._text, start)
            if not part:
                raise Unclear
            before, start = start + len(part[0].rstrip(" \r\n")), part.end()
        surely(self._text[start : start + 1] not in ("#", "&", "!"))
        return Token(start, before, value.in_flow)

    def _read(self, events: Iterable[Event]) -> None:
        steps: Dict[str, Any] = {"scalar": self._add_scalar, "alias": self._add_alias, "document": lambda event: self._anchors.clear()}
        steps.update(mapping=self._begin, sequence=self._begin, end=self._end)
        for event in events:
            if event[0] == "error":
                # (an error of YAML, of any kind, is told by the other reader)
                raise Unclear(event[5], f"not YAML to libyaml: {event[1]}")
            steps[event[0]](event)

    def _add_scalar(self, event: Event) -> None:
        _, value, style, _, _, start, end, _ = event
        # (`=` is a value of its own in YAML 1.1; a block that is the whole document ends elsewhere)
        surely(style not in ("|", ">") or self._open if style else value != "=")
        self._add(event)
        self._scalars.append((start, end, style))

    def _add(self, event: Event) -> Node:
        kind, value, style, anchor, tag, start, end, column = event
        if tag and tag not in _TAGS:
            raise Unclear(start)
        node = Node(kind, value, tag, style, anchor, start, end, column, self._flows > 0)
        self._put(node, start)
        if anchor:
            # (there is a tag before it where it is not here)
            surely(self._text[start] == "&")
            self._look_after(start + 1 + len(anchor))
            self._anchors[anchor] = node
        return node

    def _put(self, node: Node, at: int) -> None:
        self.nodes_left -= 1
        if self.nodes_left < 0:
            message = f"the file has more than {self._most:,} nodes of YAML, up to here (--max-file-nodes)"
            raise BoundError.of(self._source, at, message)
        self._items[-1].append(node)

    def _look_after(self, end: int) -> None:
        """Looks whether a name ends here, which may have more characters to others than to libyaml."""
        surely(self._text[end : end + 1] in _AFTER_NAMES)

    def _begin(self, event: Event) -> None:
        surely(len(self._open) < MOST_LEVELS)
        self._open.append(self._add(event))
        self._flows += bool(event[2])
        self._items.append([])

    def _end(self, event: Event) -> None:
        node, items = self._open.pop(), self._items.pop()
        self._flows -= bool(node.style)
        node.value = list(zip(items[::2], items[1::2])) if node.kind == "mapping" else items

    def _add_alias(self, event: Event) -> None:
        surely(event[3] in self._anchors)
        self._look_after(event[6])
        self._put(self._anchors[event[3]], event[5])
        self.has_aliases = True


quick_yaml = lru_cache(maxsize=1)(QuickYaml)

# White space that has a TAB.
_TABS = re.compile(r"(?<![ \t])[ \t]*\t[ \t]*")
_BREAK = re.compile(r"[\n\r]")
_MULTILINE = ("'", '"', "|", ">")
_COMMENT = re.compile(r"(?:^| )#")

# The start and the end of a scalar, and its style.
_Span = Tuple[int, int, str]


def _are_clear_tabs(text: str, scalars: List[_Span]) -> bool:
    """Whether each TAB is in a comment, or between other characters of a line in quotes or in a block. There it is a character as others
    are; elsewhere `ruamel.yaml` takes none, or white space has a meaning."""
    starts = [start for start, _, _ in scalars]
    comment_end = 0
    for tabs in _TABS.finditer(text):
        at = tabs.start()
        if at < comment_end:
            continue
        number = bisect_right(starts, at)
        span = scalars[number - 1] if number else (0, 0, "")
        if at < span[1]:
            if not _is_within_line(text, tabs, span):
                return False
            continue
        before = max(span[1], comment_end)
        before = max(before, text.rfind("\n", before, at) + 1, text.rfind("\r", before, at) + 1)
        if not _COMMENT.search(text[before:at]):
            return False
        line_end = _BREAK.search(text, at)
        comment_end = line_end.start() if line_end else len(text)
    return True


def _is_within_line(text: str, tabs: Match[str], span: _Span) -> bool:
    """Whether white space of a scalar is between other characters of a line."""
    start, end, style = span
    if style not in _MULTILINE or tabs.start() == start or tabs.end() >= end:
        return False
    # (the line with the sign of a block is none of it)
    is_text = style in "'\"" or bool(_BREAK.search(text, start, tabs.start()))
    return is_text and text[tabs.start() - 1] not in "\n\r\\" and text[tabs.end()] not in "\n\r"
