"""The nodes of a YAML text, whichever reader finds them; the entries of mappings, with what is merged into them by `<<`; and how YAML writes a
text: the place of each character of a scalar, and a scalar of another text in its stead."""

from __future__ import annotations

import re
import sys
from array import array
from typing import Any, Callable, Dict, FrozenSet, Iterable, Iterator, List, Match, NamedTuple, Optional, Sequence, Set, Tuple

from .files import BLANKS, BREAK, NULLS, FileError
from .queries import Edit, PlacedText

TEXT_TAGS = {f"tag:yaml.org,2002:{name}" for name in ("str", "int", "float", "bool", "timestamp")}
_NULL_TAG = "tag:yaml.org,2002:null"


class Node:
    """A scalar, or a sequence of nodes, or a mapping of pairs of nodes; what an alias stands for is the node itself."""

    __slots__ = ("kind", "value", "tag", "style", "anchor", "start", "end", "column", "in_flow")

    def __init__(
        self, kind: str, value: Any, tag: str, style: str, anchor: str, start: int, end: int, column: int, in_flow: bool
    ) -> None:
        self.kind = kind
        # A text, a list of nodes, or a list of pairs.
        self.value = value
        # That of YAML for what has none of its own, or nothing where the reader does not tell it.
        self.tag = tag
        # A quote, `|` or `>`; `{` for a collection in braces or brackets; or nothing.
        self.style = style
        self.anchor = anchor
        # Where it begins, with its anchor and its tag, and where it ends.
        self.start = start
        self.end = end
        self.column = column
        # Whether it is in braces or brackets.
        self.in_flow = in_flow

    def is_scalar(self) -> bool:
        return self.kind == "scalar"

    def is_plain(self, text: str) -> bool:
        return self.kind == "scalar" and bool(self.value == text) and not self.style

    def is_merge(self) -> bool:
        return self.is_plain("<<")

    def is_null(self) -> bool:
        if self.tag:
            return self.kind == "scalar" and self.tag == _NULL_TAG
        return self.kind == "scalar" and not self.style and self.value in NULLS

    def is_text(self) -> bool:
        """Whether it is a text to Prometheus: numbers, Booleans and times of YAML are."""
        is_text = self.tag in TEXT_TAGS if self.tag else not self.is_merge()
        return self.kind == "scalar" and is_text and not self.is_null()


class Token(NamedTuple):
    """Where a scalar begins without its anchor and its tag, where the token before it ends, and whether it is in braces or brackets."""

    start: int
    before: int
    in_flow: bool


Entry = Tuple[Node, Node]
# More entries than anyone writes: only mappings that merge the same ones again and again have so many.
_MOST_ENTRIES = 200_000


class _Mapping(NamedTuple):
    """What a mapping itself has."""

    entries: Dict[str, Entry]
    # The values of `<<`.
    merges: List[Node]
    # The keys that are there before.
    repeated: List[Node]


class Mappings:
    """The mappings of a file. Each is looked at once for a key, however often it is merged."""

    def __init__(self, name: str) -> None:
        self._name = name
        self._read: Dict[int, _Mapping] = {}
        self._merged_entries: Dict[Tuple[int, str], Optional[Entry]] = {}
        self._sought: Set[Tuple[int, str]] = set()
        self._answers: Dict[Tuple[str, int], bool] = {}
        self._labels: Dict[int, FrozenSet[Tuple[str, str]]] = {}
        self._walked = 0

    def entry(self, mapping: Node, key: str) -> Optional[Entry]:
        """The node of a key and that of its value, which may come from a mapping that is merged into this one."""
        if mapping.kind != "mapping" or not mapping.value:
            return None
        own = self._read.get(id(mapping)) or self._own(mapping)
        found = own.entries.get(key)
        if found or not own.merges:
            return found
        place = (id(mapping), key)
        if place in self._sought:
            raise FileError(f"{self._name}: a mapping is merged into itself")
        if place not in self._merged_entries:
            self._sought.add(place)
            self._merged_entries[place] = next(filter(None, (self.entry(part, key) for part in self.merged(mapping))), None)
            self._sought.remove(place)
        return self._merged_entries[place]

    def answer(self, question: str, node: Node, find: Callable[[], bool]) -> bool:
        """The answer to a question about a node, which is found once, however many aliases have the node."""
        place = (question, id(node))
        if place not in self._answers:
            self._answers[place] = find()
        return self._answers[place]

    def value(self, mapping: Node, key: str) -> Optional[Node]:
        own = self._read.get(id(mapping))
        # (a file asks so often that a call more for each takes a twentieth of all)
        entry = own.entries.get(key) if own and not own.merges else self.entry(mapping, key)
        return entry[1] if entry else None

    def name(self, mapping: Node, key: str) -> str:
        """The text of a scalar under a key, or nothing. (`~` and `null` are texts for the name of a rule.)"""
        value = self.value(mapping, key)
        return str(value.value) if value and value.kind == "scalar" else ""

    def text(self, mapping: Node, key: str) -> str:
        """The same, but for what is null."""
        value = self.value(mapping, key)
        return str(value.value) if value and value.kind == "scalar" and not value.is_null() else ""

    def entries(self, mapping: Node) -> Sequence[Entry]:
        """All entries, the own ones before those that are merged; a key may be there again."""
        if mapping.kind == "mapping" and not self._own(mapping).merges:
            self._walk(mapping)
            found: List[Entry] = mapping.value
            return found
        return list(self._with_merged(mapping))

    def _with_merged(self, mapping: Node) -> Iterator[Entry]:
        todo, seen = [mapping], {id(mapping)}
        while todo:
            part = todo.pop()
            if part.kind == "mapping":
                self._walk(part)
                yield from (entry for entry in part.value if not entry[0].is_merge())
            parts = [other for other in self.merged(part) if id(other) not in seen]
            seen.update(map(id, parts))
            todo += reversed(parts)

    def _walk(self, mapping: Node) -> None:
        """Counts the entries of a mapping, of which a file has so many at most, again for each time that they are asked for."""
        self._walked += len(mapping.value)
        if self._walked > _MOST_ENTRIES:
            raise FileError(f"{self._name}: its merge keys make more than {_MOST_ENTRIES:,} entries of it")

    def labels(self, owner: Optional[Node]) -> FrozenSet[Tuple[str, str]]:
        """The labels of a mapping whose names and values are scalars."""
        if owner and owner.kind == "mapping" and id(owner) not in self._labels:
            # (an own label comes before one that is merged)
            entries = reversed([it for it in self.entries(owner) if it[0].is_scalar() and it[1].is_scalar()])
            self._labels[id(owner)] = frozenset({str(key.value): str(value.value) for key, value in entries}.items())
        return self._labels.get(id(owner), frozenset())

    def merged(self, mapping: Node) -> Iterator[Node]:
        """What is merged into a mapping."""
        for value in self._own(mapping).merges if mapping.kind == "mapping" else ():
            if value.kind == "sequence":
                yield from value.value
            else:
                yield value

    def repeated(self, mapping: Node) -> List[Node]:
        """The keys of a mapping that it has before."""
        return self._own(mapping).repeated

    def _own(self, mapping: Node) -> _Mapping:
        found = self._read.get(id(mapping))
        if not found:
            found = self._read[id(mapping)] = _Mapping({}, [], [])
            for entry in mapping.value:
                key = entry[0]
                if key.kind != "scalar":
                    continue
                if key.value == "<<" and not key.style:
                    found.repeated.extend([key] if found.merges else [])
                    found.merges.append(entry[1])
                elif found.entries.setdefault(key.value, entry) is not entry:
                    found.repeated.append(key)
        return found


_BREAK = re.compile(BREAK)
_LINE = re.compile(rf"([^\r\n]*)({BREAK}|\Z)")
_FOLD = re.compile(rf"[ \t]*{BREAK}(?:[ \t]*{BREAK})*[ \t]*")
# Characters that mean themselves, whichever quotes they are in.
_RUN = re.compile(r"(?:[^\\' \t\r\n]|[ \t]+(?![ \t\r\n]))+")
_CONTINUATION = re.compile(rf"\\{BREAK}((?:[ \t]*{BREAK})*)[ \t]*")
_ESCAPE = re.compile(r"\\(?:x([0-9A-Fa-f]{2})|u([0-9A-Fa-f]{4})|U([0-9A-Fa-f]{8})|(.))")
# (each matches without a second try)
_REST, _BLANK = re.compile(r"[^\r\n]*"), re.compile(r"[ \t\r\n]*")
# What an escape of one character means.
_ESCAPES = dict(zip('0abt\tnvfre "/\\N_LP', '\0\a\b\t\t\n\v\f\r\x1b "/\\\x85\xa0\u2028\u2029'))
_HEADER = re.compile(r"[|>]([-+1-9]*)([^\r\n]*)")
# What only a double-quoted scalar can have, by an escape.
_UNPRINTABLE = re.compile("[\0-\t\v-\x1f\x7f-\x9f\u2028\u2029\ud800-\udfff\ufeff\ufffe\uffff]")
_PLAIN = re.compile(r"(?:[^-?:,\[\]{}#&*!|>'\"%@` ]|[-?:](?! |\Z))(?:(?!: | #|:\Z| \Z).)*")
# The columns of the key with what follows it, and how much farther in than the key a block is.
_KEY = len("expr: ")
_STEP = 2


class Scalar(NamedTuple):
    """A scalar of a file, `source[start:end]`, without its anchor and its tag."""

    source: str
    start: int
    end: int
    # Where the token before it ends.
    before: int
    # A quote, `|` or `>`, or nothing for a plain scalar.
    style: str
    in_flow: bool
    # The column of its key, from 0.
    column: int

    def offsets(self, value: str) -> Optional[array[int]]:
        """The place of each character of this value, and of its end; or nothing, where it is read as another value here."""
        reading = _block_of(self, value) if self.is_block() else flow_text(self)
        return reading.offsets + array("L", [self._content_end()]) if reading and reading.text == value else None

    def room(self, width: int) -> int:
        return self._room_after(_KEY, width)

    def room_of_lines(self, width: int) -> int:
        return self._room_after(_STEP, width)

    def _room_after(self, before: int, width: int) -> int:
        """What is left of this width so far after the column of the key, where there may be a block."""
        one_line = self.in_flow or self.has_comment_below()
        return sys.maxsize if one_line else max(width - self.column - before, 0)

    def edit(self, text: str) -> Edit:
        if self.is_block():
            return self._edit_block(text)
        if "\n" in text and not _UNPRINTABLE.search(text):
            return self._edit_to_block(text)
        return Edit(self.start, self.end, self._one_line(text))

    def is_block(self) -> bool:
        return self.style in ("|", ">")

    def has_comment_below(self) -> bool:
        """Whether the next line but blank ones is a comment as far in as the lines of a block, which would be of the block."""
        rest = _REST.match(self.source, self._content_end())
        blank = _BLANK.match(self.source, rest.end()) if rest else None
        before = blank[0] if blank and self.source.startswith("#", blank.end()) else ""
        line = before[max(before.rfind("\n"), before.rfind("\r")) + 1 :]
        return line != before and "\t" not in line and len(line) >= self.column + _STEP

    def _content_end(self) -> int:
        """Where the text ends: before a quote, and in a block before the blank lines after it."""
        if self.is_block():
            return self.start + len(self.source[self.start : self.end].rstrip(BLANKS))
        return self.end - len(self.style)

    def _one_line(self, text: str) -> str:
        if self.style == '"' or _UNPRINTABLE.search(text):
            return _double_quoted(text)
        if self.style == "'" or not _is_plain(text, self.in_flow):
            return "'" + text.replace("'", "''") + "'"
        return text

    def _edit_block(self, text: str) -> Edit:
        """A block of the same chomping, in the same place, with the comment that its first line has."""
        header, last = _HEADER.match(self.source, self.start), _LINE.match(self.source, self._content_end())
        assert header and last
        if _UNPRINTABLE.search(text):
            return Edit(self.start, last.end(1), _double_quoted(text) + header[2])
        style = "|" if "\n" in text else self.style
        return Edit(self.start, last.end(1), self._block(style, _chomping(header), header[2], text))

    def _edit_to_block(self, text: str) -> Edit:
        """A block in place of a scalar which is none, on the line of the key where nothing but blank lines is between."""
        rest = _LINE.match(self.source, self.end)
        assert rest
        first = _LINE.match(self.source, self.before, self.start)
        if first and first[2] and not self.source[first.end() : self.start].strip(BLANKS):
            return Edit(self.before, rest.end(1), " " + self._block("|", "-", first[1] + rest[1], text))
        return Edit(self.start, rest.end(1), self._block("|", "-", rest[1], text))

    def _block(self, style: str, chomping: str, rest: str, text: str) -> str:
        """A block scalar without its last line end. It says its indentation where its first line has more."""
        indentation = str(_STEP) if text.startswith(" ") else ""
        found = _BREAK.search(self.source, self.start) or _BREAK.search(self.source)
        line_end = found[0] if found else "\n"
        lines = [" " * (self.column + _STEP) + line for line in text.split("\n")]
        return line_end.join([style + indentation + chomping + rest, *lines])


def flow_text(scalar: Scalar) -> PlacedText:
    """What a scalar says that is no block: line ends are folded."""
    quotes = len(scalar.style)
    source, at, end, text = scalar.source, scalar.start + quotes, scalar.end - quotes, PlacedText()
    while at < end:
        if run := _RUN.match(source, at, end):
            text.put(run[0], at)
            at = run.end()
        elif fold := _FOLD.match(source, at, end):
            line_feeds = range(at, fold.end()) if not fold[0].strip("\n") else ()
            _fold(text, line_feeds or [found.start() for found in _BREAK.finditer(source, at, fold.end())])
            at = fold.end()
        elif scalar.style == '"' and source[at] == "\\":
            at = _unescape(text, source, at, end)
        else:
            text.put(source[at], at)
            at += 2 if scalar.style == "'" and source[at] == "'" else 1
    return text


def _fold(text: PlacedText, breaks: Sequence[int]) -> None:
    """Of line ends in a row the first is left out; one alone is a space."""
    if len(breaks) == 1:
        text.put(" ", breaks[0])
    _keep(text, breaks[1:])


def _keep(text: PlacedText, breaks: Sequence[int]) -> None:
    text.put_each("\n" * len(breaks), breaks)


def _unescape(text: PlacedText, source: str, at: int, end: int) -> int:
    """Adds what an escape means, and returns where it ends."""
    continuation = _CONTINUATION.match(source, at, end)
    if continuation:
        _keep(text, [found.start() for found in _BREAK.finditer(source, *continuation.span(1))])
        return continuation.end()
    escape = _ESCAPE.match(source, at, end)
    if not escape:
        return end
    code = escape[1] or escape[2] or escape[3]
    text.put(chr(int(code, 16)) if code else _ESCAPES.get(escape[4], ""), at)
    return escape.end()


def _block_of(scalar: Scalar, value: str) -> Optional[PlacedText]:
    """What a block says whose lines have the indentation with which its first line is that of the value; nothing where there is none."""
    header = _HEADER.match(scalar.source, scalar.start)
    assert header
    written = _first_blanks(scalar.source[start:stop] for start, stop in _lines(scalar))
    indent = written - _first_blanks(found[1] for found in _LINE.finditer(value)) if written else 1
    return _block(scalar, indent, _chomping(header)) if indent > 0 else None


def _lines(scalar: Scalar) -> Iterator[Tuple[int, int]]:
    """The lines of a block below its sign, without their ends."""
    first = _LINE.match(scalar.source, scalar.start)
    assert first
    return (found.span(1) for found in _LINE.finditer(scalar.source, first.end(), scalar.end) if found[0])


def _first_blanks(lines: Iterable[str]) -> int:
    """How many blanks the first line begins with that has more than these; 0 where there is none."""
    return next((len(line) - len(line.lstrip(" ")) for line in lines if line.strip(" ")), 0)


def _chomping(header: Match[str]) -> str:
    return header[1].strip("123456789")


def _block(scalar: Scalar, indent: int, chomping: str) -> PlacedText:
    """What a block of this indentation says."""
    text, before = PlacedText(), " "
    breaks: List[int] = []
    for start, stop in _lines(scalar):
        content = scalar.source[start + indent : stop]
        if content:
            folds = scalar.style == ">" and before not in " \t" and content[0] not in " \t"
            (_fold if folds else _keep)(text, breaks)
            text.put(content, start + indent)
            before, breaks = content[0], []
        if stop < scalar.end:
            breaks.append(stop)
    _keep(text, breaks[: {"-": 0, "": 1}.get(chomping, len(breaks))])
    return text


def _is_plain(text: str, in_flow: bool) -> bool:
    """Whether a text of one line may be a plain scalar."""
    if text in NULLS or (in_flow and re.search(r"[,:?\[\]{}]", text)):
        return False
    return bool(_PLAIN.fullmatch(text))


def _double_quoted(text: str) -> str:
    escaped = text.replace("\\", "\\\\").replace('"', '\\"').replace("\n", "\\n")
    return '"' + _UNPRINTABLE.sub(lambda found: _escape(ord(found[0])), escaped) + '"'


def _escape(code: int) -> str:
    return f"\\x{code:02x}" if code < 0x100 else f"\\u{code:04x}" if code < 0x10000 else f"\\U{code:08x}"
