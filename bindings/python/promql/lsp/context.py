"""What is around a place of a query that may not be whole yet: the open brackets, the word that is being written, and the parts, each in the next
one, of which an editor selects more and more."""

from __future__ import annotations

from typing import Iterator, List, NamedTuple, Optional, Sequence, Tuple

import promql

from ..token_texts import Token, code_of, string_content, token_at, tokens_of
from .names import LABELS, selectors_of

CALL, AGGREGATION, LABEL_LIST, PARENTHESES, BRACES, BRACKETS = "call", "aggregation", "labels", "parentheses", "braces", "brackets"
_CLOSING = {")": "(", "}": "{", "]": "["}


class Opening(NamedTuple):
    """A bracket that opens."""

    kind: str
    sign: Token
    # The name of the call, the aggregation or the selector before it.
    head: Optional[Token]
    commas: int


class Brackets(NamedTuple):
    """The brackets that are not closed, and those that are, with the sign that closes them."""

    opened: List[Opening]
    closed: List[Tuple[Opening, Token]]


class Context(NamedTuple):
    # The brackets that are not closed before the place.
    openings: Tuple[Opening, ...]
    # The tokens before the word.
    before: Tuple[Token, ...]
    # The word or the string in which the place is or which ends there.
    word: Optional[Token]

    @property
    def inner(self) -> Optional[Opening]:
        return self.openings[-1] if self.openings else None

    def previous(self, number: int = 1) -> Optional[Token]:
        return self.before[-number] if len(self.before) >= number else None


def context_at(text: str, offset: int) -> Optional[Context]:
    """The context of a place; nothing in a comment."""
    before: List[Token] = []
    word: Optional[Token] = None
    for token in tokens_of(text):
        if token.start >= offset:
            break
        if token.kind == "comment":
            if offset <= token.end:
                return None
        elif _is_word(token, offset):
            word = token
        else:
            before.append(token)
    return Context(tuple(brackets_of(before).opened), tuple(before), word)


def _is_word(token: Token, offset: int) -> bool:
    if token.is_quoted:
        return offset < token.end or token.is_open
    return token.is_word and offset <= token.end


def brackets_of(tokens: Sequence[Token]) -> Brackets:
    found, closed = Brackets([], [])
    # The name of an aggregation whose labels are written before its arguments.
    waiting: Optional[Token] = None
    for number, token in enumerate(tokens):
        if not token.is_sign:
            continue
        if token.text in "([{":
            opening = _opening(token, tokens[number - 1] if number else None, waiting)
            if opening.kind == LABEL_LIST:
                waiting = tokens[number - 2] if number > 1 and tokens[number - 2].kind == "aggregator" else None
            else:
                waiting = None
            found.append(opening)
        elif token.text in _CLOSING:
            if found and found[-1].sign.text == _CLOSING[token.text]:
                closed.append((found.pop(), token))
        elif token.text == "," and found:
            found[-1] = found[-1]._replace(commas=found[-1].commas + 1)
    return Brackets(found, closed)


def _opening(sign: Token, before: Optional[Token], waiting: Optional[Token]) -> Opening:
    if sign.text != "(":
        head = before if before and before.is_word and before.end == sign.start else None
        return Opening(BRACES if sign.text == "{" else BRACKETS, sign, head, 0)
    if before and before.kind == "keyword" and before.lower in LABELS:
        return Opening(LABEL_LIST, sign, None, 0)
    if before and (before.kind in ("aggregator", "name") or before.lower in ("start", "end")):
        return Opening(AGGREGATION if before.kind == "aggregator" else CALL, sign, before, 0)
    if waiting and before and before.text == ")":
        return Opening(AGGREGATION, sign, waiting, 0)
    return Opening(PARENTHESES, sign, None, 0)


Span = Tuple[int, int]
# Of more spans than these only the smallest ones are told, and the whole query.
_MOST_SPANS = 200


def spans_around(text: str, offset: int) -> List[Span]:
    """The spans around a place, the smallest one first, and last the whole query."""
    tokens, found = tokens_of(text), [(0, len(text))]
    number = token_at(tokens, offset)
    token = tokens[number] if number >= 0 else None
    if token and token.kind == "string" and token.start < offset < token.end:
        found.append(string_content(token))
    if token and not token.is_sign:
        found.append((token.start, token.end))
    if not token or token.kind != "comment":
        found += _parts(text)
    return _nested(found, offset)


def folds_of(text: str) -> List[Span]:
    """What is in brackets, where it may be over several lines."""
    closed = brackets_of(code_of(text)).closed if "\n" in text or "\r" in text else ()
    return [(opening.sign.end, closing.start) for opening, closing in closed]


def _parts(text: str) -> Iterator[Span]:
    """Matchers, what is in brackets, without these and with them, and nodes; or selectors and calls where the text is not accepted."""
    selectors, closed = selectors_of(text), brackets_of(code_of(text)).closed
    yield from ((it.name.start, it.value.end) for selector in selectors for it in selector.matchers if it.name)
    for opening, closing in closed:
        yield from ((opening.sign.end, closing.start), (opening.sign.start, closing.end))
    try:
        yield from promql.places(text)
    except ValueError:
        yield from ((selector.start, selector.end) for selector in selectors)
        yield from ((opening.head.start, closing.end) for opening, closing in closed if opening.head)


def _nested(spans: List[Span], offset: int) -> List[Span]:
    """Those of the spans that have the place in them, each in the next one."""
    kept: List[Span] = []
    for start, end in sorted({*spans}, key=lambda span: (span[1] - span[0], -span[0])):
        is_around = start <= offset <= end and end > start
        if is_around and (not kept or start <= kept[-1][0] and kept[-1][1] <= end):
            kept.append((start, end))
    return kept if len(kept) <= _MOST_SPANS else [*kept[:_MOST_SPANS], kept[-1]]
