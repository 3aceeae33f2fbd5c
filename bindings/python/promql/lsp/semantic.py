"""What each token of a query is, for the colours of an editor; and the tokens of a document, as the protocol has them: five numbers each, of
which the first two count from the token before."""

from __future__ import annotations

from typing import TYPE_CHECKING, Iterable, Iterator, List, NamedTuple, Tuple

from ..token_texts import Token, tokens_of
from .names import LABELS
from .positions import Lines, units

if TYPE_CHECKING:
    from .rules import PlacedQuery

TYPES = ["function", "keyword", "operator", "string", "regexp", "number", "variable", "property", "comment"]
# Those of tokens whose kinds have other names.
_BY_KIND = {"aggregator": "function", "duration": "number"}


class Role(NamedTuple):
    """The part `text[start:end]` of a query, and the number of what it is."""

    type: int
    start: int
    end: int


def roles_of(text: str) -> Tuple[Role, ...]:
    return tuple(_roles(tokens_of(text)))


def _roles(tokens: Tuple[Token, ...]) -> Iterator[Role]:
    labels, before = False, ""
    for number, token in enumerate(tokens):
        after = tokens[number + 1].text if number + 1 < len(tokens) else ""
        if token.is_sign:
            labels = token.text == "{" or token.text == "(" and before in LABELS or labels and token.text not in "})"
            name = "operator" if token.kind == "operator" else ""
        elif labels and token.kind != "comment" and (token.kind != "string" or before == "("):
            name = "operator" if token.kind == "operator" and before not in ("(", ",", "{") else "property"
        elif token.kind == "string":
            name = "regexp" if before in ("=~", "!~") else "string"
        elif token.kind == "name":
            name = "function" if after == "(" else "variable"
        elif token.kind == "aggregator" and after != "(" and after.lower() not in ("by", "without"):
            name = "variable"
        else:
            name = _BY_KIND.get(token.kind, token.kind)
        if name and token.kind != "error":
            yield Role(TYPES.index(name), token.start, token.end)
        if token.kind != "comment":
            before = token.lower


class _Writer:
    """Writes tokens, which come in their order."""

    def __init__(self, lines: Lines) -> None:
        self.data: List[int] = []
        self._lines = lines
        self._line = 0
        self._character = 0

    def put(self, line: int, character: int, length: int, kind: int) -> None:
        self.data += (line - self._line, character - (self._character if line == self._line else 0), length, kind, 0)
        self._line, self._character = line, character

    def put_query(self, query: PlacedQuery) -> None:
        """Writes the tokens of a query, each cut at the ends of lines, where it is over several."""
        for role in query.roles:
            for start, end in _on_lines(self._lines.text, *query.span(role.start, role.end)):
                self.put(*self._lines.point(start), units(self._lines.text[start:end]), role.type)

    def put_line(self, query: PlacedQuery) -> None:
        """Writes the tokens of a query on one line, whose units are its characters: the same, and quicker."""
        line, begin = self._lines.point(query.start)
        for kind, start, end in query.roles:
            self.put(line, begin + start, end - start, kind)


def encoded(lines: Lines, queries: Iterable[PlacedQuery], start: int, end: int) -> List[int]:
    """The tokens in a part of a document."""
    writer = _Writer(lines)
    for query in queries:
        if query.end >= start and query.start <= end:
            (writer.put_line if query.is_line and query.text.isascii() else writer.put_query)(query)
    return writer.data


def _on_lines(text: str, start: int, end: int) -> Iterator[Tuple[int, int]]:
    """A part, cut at the ends of lines, where it is over several."""
    if "\n" not in text[start:end] and "\r" not in text[start:end]:
        yield start, end
        return
    at = start
    for line in text[start:end].splitlines(keepends=True):
        content = line.rstrip("\r\n")
        if content.strip():
            yield at + len(content) - len(content.lstrip()), at + len(content)
        at += len(line)
