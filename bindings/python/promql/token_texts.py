"""The tokens of a query with their texts. The library alone reads them: what they are, `promql.tokens` tells."""

from __future__ import annotations

from functools import lru_cache
from typing import List, NamedTuple, Sequence, Tuple

import promql

# The operators of matchers.
MATCHER_SIGNS = ("=", "!=", "=~", "!~")
# What is after a selector of LogQL, and nowhere in PromQL: a filter of lines, or a stage.
_FILTERS = tuple(sign + quote for sign in ("|=", "|~", "|>", "!=", "!~", "!>") for quote in '"`')
_STAGES = "json logfmt regexp pattern unpack unwrap line_format label_format decolorize drop keep distinct".split()


class Token(NamedTuple):
    """The token `query[start:end]`."""

    kind: str
    text: str
    start: int
    end: int

    @property
    def lower(self) -> str:
        return self.text.lower()

    @property
    def is_sign(self) -> bool:
        """Whether it is punctuation, or an operator that is no word."""
        return self.kind == "punctuation" or self.kind == "operator" and not self.text[0].isalpha()

    @property
    def is_word(self) -> bool:
        return self.kind not in ("error", "punctuation") and (self.text[0].isalpha() or self.text[0] in "_:")

    @property
    def is_quoted(self) -> bool:
        """Whether it is a string, or one with an error."""
        return self.text[0] in "\"'`"

    @property
    def is_open(self) -> bool:
        """Whether it is a string that is not closed."""
        return self.is_quoted and (len(self.text) == 1 or self.text[-1] != self.text[0])


def tokens_of(query: str) -> Tuple[Token, ...]:
    """The tokens of a text and its comments; none where it is longer than a query may be, or has a surrogate."""
    try:
        return _tokens_of(query)
    except ValueError:
        return ()


# (few: those of a long query that is typed in are large)
@lru_cache(maxsize=32)
def _tokens_of(query: str) -> Tuple[Token, ...]:
    return tuple([Token(kind, query[start:end], start, end) for kind, start, end in promql._tokens(query)])


def code_of(query: str) -> List[Token]:
    """The tokens without comments."""
    return [token for token in tokens_of(query) if token.kind != "comment"]


def comments_of(query: str) -> Tuple[str, ...]:
    """The comments of a query that the library reads."""
    return _comments_of(query) if "#" in query else ()


# (few, and without the other tokens, for which see above)
@lru_cache(maxsize=32)
def _comments_of(query: str) -> Tuple[str, ...]:
    return tuple([query[start:end] for kind, start, end in promql._tokens(query) if kind == "comment"])


def pattern_operators(query: str) -> List[Token]:
    """The operators of a query before patterns."""
    return [token for token in tokens_of(query) if token.text in ("=~", "!~")] if "~" in query else []


def token_at(tokens: Sequence[Token], offset: int) -> int:
    """The number of the token in which a place is, or of the one that ends there, or -1. A word is preferred to a sign,
    and of two signs the one that begins there."""
    best = -1
    for number, token in enumerate(tokens):
        if token.start > offset:
            break
        if token.start <= offset < token.end:
            if best == -1 or not token.is_sign or tokens[best].is_sign:
                best = number
        elif token.end == offset and token.kind != "comment":
            best = number
    return best


def string_content(token: Token) -> Tuple[int, int]:
    """Where the text of a string begins and ends, without its quotes."""
    return token.start + 1, max(token.end - (not token.is_open), token.start + 1)


def is_logql(query: str) -> bool:
    """Whether a query is surely of Loki, and not of Prometheus."""
    rest = query.partition("}")[2] if "{" in query else ""
    if "|" not in rest and "!" not in rest:
        # (no filter and no stage is after braces)
        return False
    tokens = [token.text for token in code_of(query)]
    after = (tokens[number : number + 3] for number, text in enumerate(tokens, 1) if text == "}")
    return any("".join(it).startswith(_FILTERS) or it[:1] == ["|"] and it[1:2] and it[1] in _STAGES for it in after)
