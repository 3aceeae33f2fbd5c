"""Rules about what a query has for nothing: P601 and P602."""

from __future__ import annotations

import re
from typing import Iterator, Optional, Tuple

from ..labels import kind_of
from .findings import Fix, Remark, Severity, Span, TextEdit, Tree
from .subject import Subject
from .table import rule

_WORD, _EMPTY = re.compile(r"[\w:]"), re.compile(r"\{\s*\}")
# What is one thing without parentheses.
_PRIMARY = ("parenExpr", "numberLiteral", "stringLiteral", "vectorSelector", "matrixSelector", "call", "aggregation", "subquery")


@rule("P601", "needless-parentheses", Severity.INFO, needs="parenExpr")
def needless_parentheses(subject: Subject) -> Iterator[Remark]:
    """Parentheses around what is one thing anyway: a name, a call, all of an argument or of the query."""
    for node in subject.of_type("parenExpr"):
        reason = _why_needless(subject, node)
        if reason:
            fix = Fix(_without(subject.text, subject.span(node)), ((node, node["expr"]),))
            yield Remark(subject.span(node), f"needless parentheses around {reason}", fix)


def _without(query: str, span: Span) -> Tuple[TextEdit, ...]:
    """Edits that take parentheses away, with the white space in them, but for what ends a comment."""
    start, end = span
    last = end - 1
    inside = query[start + 1 : last]
    first, blank = last - len(inside.lstrip()), start + 1 + len(inside.rstrip())
    # (what ends the line ends a comment as well)
    if "#" not in query or "#" not in query[query.rfind("\n", 0, blank) + 1 : blank] or query[end:].lstrip(" \t\r")[:1] in ("", "\n"):
        last = blank
    before = " " if _is_word(query, start - 1) and _is_word(query, first) else ""
    after = " " if _is_word(query, last - 1) and _is_word(query, end) else ""
    return TextEdit(start, first, before), TextEdit(last, end, after)


def _is_word(query: str, at: int) -> bool:
    """Whether a character of a word is there."""
    return 0 <= at < len(query) and bool(_WORD.match(query[at]))


def _why_needless(subject: Subject, node: Tree) -> Optional[str]:
    above, below = subject.parent(node), node["expr"]
    if above is None:
        return "the whole query"
    if above["type"] in ("call", "aggregation"):
        return "a whole argument"
    if above["type"] == "parenExpr" or below["type"] == "parenExpr":
        return "other parentheses" if below["type"] == "parenExpr" else None
    if below["type"] not in _PRIMARY or above["type"] != "binaryExpr":
        return None
    # (a variable may be more than one thing)
    head = subject.head(below)
    return f"one {kind_of(below)}" if subject.is_written(subject.text[head.start : head.end]) else None


@rule("P602", "empty-braces", Severity.INFO, needs="{")
def empty_braces(subject: Subject) -> Iterator[Remark]:
    """Braces without a matcher."""
    for node in subject.selectors if _EMPTY.search(subject.text) else ():
        if node["name"] is not None and not node["matchers"] and "or_matchers" not in node:
            braces = subject.place(node).braces
            if braces and subject.text[braces.start + 1 : braces.end - 1].strip() == "":
                yield Remark(braces, "needless braces: there is no matcher in them", Fix((TextEdit(*braces, ""),), ()))
