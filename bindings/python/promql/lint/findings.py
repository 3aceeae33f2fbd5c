"""What a linter says of a query, findings with their places, and fixes; and what the rules ask of the JSON form of a tree."""

from __future__ import annotations

from enum import Enum
from typing import Any, Dict, NamedTuple, Optional, Tuple

from ..queries import Edit

Tree = Dict[str, Any]
# A text in place of a part of a query.
TextEdit = Edit
# Parts of a tree, and what is to be there instead; None for a part leaves it out of its list.
Changes = Tuple[Tuple[Tree, Any], ...]


class Severity(Enum):
    """How bad a finding is; also its text."""

    ERROR = "error"
    WARNING = "warning"
    INFO = "info"


class Span(NamedTuple):
    """The part `query[start:end]` of a query."""

    start: int
    end: int


class Fix(NamedTuple):
    """Edits of a query, none of which overlaps another, and what they are meant to change in its JSON form."""

    edits: Tuple[TextEdit, ...]
    changes: Changes


class Remark(NamedTuple):
    """What a rule says of a part of a query."""

    span: Span
    message: str
    fix: Optional[Fix] = None


class Finding(NamedTuple):
    """What a rule says of a query: the remark, with the rule's code and severity."""

    span: Span
    code: str
    message: str
    severity: Severity
    fix: Optional[Fix] = None


NAME = "__name__"
# How the sides of an operator match where nothing is said.
_PLAIN: Tree = {"card": "one-to-one", "fillValues": {"lhs": None, "rhs": None}, "include": [], "labels": [], "on": False}


def inner(node: Tree) -> Tree:
    """What is in the parentheses around a node, or the node."""
    while node["type"] == "parenExpr":
        node = node["expr"]
    return node


def is_comparison(node: Tree) -> bool:
    return node["type"] == "binaryExpr" and node["op"] in ("==", "!=", "<", ">", "<=", ">=")


def number_of(node: Tree) -> Optional[float]:
    """The value of a number, with its sign and parentheses."""
    node = inner(node)
    if node["type"] == "unaryExpr":
        value = number_of(node["expr"])
        return None if value is None else -value
    return float(node["val"]) if node["type"] == "numberLiteral" else None


def duration_text(milliseconds: int) -> str:
    for unit, length in (("d", 86_400_000), ("h", 3_600_000), ("m", 60_000), ("s", 1_000)):
        if milliseconds and milliseconds % length == 0:
            return f"{milliseconds // length}{unit}"
    return f"{milliseconds}ms"


def matching_of(node: Tree) -> Tree:
    """How the sides of an operator match."""
    matching: Tree = node["matching"] or _PLAIN
    return matching


def fills(node: Tree) -> bool:
    """Whether a side of an operator has values where the other has series."""
    return any(value is not None for value in matching_of(node)["fillValues"].values())


_ESCAPES = str.maketrans({"\\": r"\\", '"': r"\"", "\n": r"\n", "\r": r"\r", "\t": r"\t"})


def requoted(old: str, value: str) -> str:
    """A string literal of this value, in the quotes of the old one where these serve."""
    quote = old[:1]
    if quote == "`" and "`" not in value and "\r" not in value:
        return f"`{value}`"
    if quote == "'":
        return "'" + value.translate(_ESCAPES).replace(r"\"", '"').replace("'", r"\'") + "'"
    return '"' + value.translate(_ESCAPES) + '"'
