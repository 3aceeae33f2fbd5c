"""What is told of the part of a query at a place: what a function does, what a selector selects, the type of a node."""

from __future__ import annotations

from typing import Any, Dict, NamedTuple, Optional, Sequence, Tuple

import promql

from ..labels import children_of, nodes_of
from ..token_texts import Token, code_of, token_at
from .context import AGGREGATION, CALL, context_at
from .functions import AGGREGATIONS, FUNCTIONS, TYPES, WORDS, Function
from .names import Selector, plain, selectors_of

_SAYINGS = {"=": "is", "!=": "is not", "=~": "matches", "!~": "does not match"}
# The types of what has one whatever is in it.
_TYPES = {**dict.fromkeys(("aggregation", "vectorSelector"), "vector"), **dict.fromkeys(("matrixSelector", "subquery"), "matrix")}
_TYPES.update(numberLiteral="scalar", stringLiteral="string")


class Hover(NamedTuple):
    """What is told, in Markdown, of the part `text[start:end]` of a query."""

    text: str
    start: int
    end: int


def hover(text: str, offset: int) -> Optional[Hover]:
    tokens = code_of(text)
    number = token_at(tokens, offset)
    if number < 0:
        return None
    token, selectors = tokens[number], selectors_of(text)
    is_metric = any(selector.name == token for selector in selectors)
    told = "" if is_metric else _of_word(token, *(tokens[at].text if 0 <= at < len(tokens) else "" for at in (number - 1, number + 1)))
    return Hover(told, token.start, token.end) if told else _of_part(text, token, selectors)


def _of_word(token: Token, before: str, after: str) -> str:
    """What is told of a function, or of a word of the language."""
    if token.text in FUNCTIONS and after == "(" and before != "@":
        return _of_function(FUNCTIONS[token.text])
    if token.kind == "aggregator":
        return _of_function(AGGREGATIONS[token.lower])
    if token.kind in ("keyword", "operator") and token.lower in WORDS:
        return f"`{token.lower}`\n\n{WORDS[token.lower]}"
    return ""


def _of_function(function: Function) -> str:
    note = "\n\nExperimental: Prometheus takes it where experimental functions are enabled." if function.is_experimental else ""
    return f"```promql\n{function.signature}\n```\n\n{function.sentence}{note}"


def _of_part(text: str, token: Token, selectors: Sequence[Selector]) -> Optional[Hover]:
    """What is told of the smallest node with a token in it; where the text is not accepted, of the selector."""
    try:
        nodes = [node for node in nodes_of(promql.parse(text, places=True)) if node["start"] <= token.start and token.end <= node["end"]]
    except (ValueError, RecursionError):
        around = [it for it in selectors if it.start <= token.start and token.end <= it.end]
        return Hover(_selects(around[0]), around[0].start, around[0].end) if around else None
    if not nodes:
        return None
    node = nodes[-1]
    told = [f"Type: {type_of(node)}."]
    if node["type"] in ("vectorSelector", "matrixSelector"):
        told = [*(_selects(it) for it in selectors if node["start"] <= it.start and it.end <= node["end"]), *told]
    return Hover("\n\n".join(told), node["start"], node["end"])


def _selects(selector: Selector) -> str:
    """What a selector selects."""
    names = [selector.name.text] if selector.name else [plain(it.value) for it in selector.matchers if it.is_of_metric]
    first = f"Selects the series of `{names[0]}`" if names else "Selects series of any name"
    others = [it for it in selector.matchers if not it.is_of_metric]
    lines = [f"- `{plain(it.name)}` {_SAYINGS[it.sign.text]} `{it.value.text}`" for it in others if it.name and it.sign]
    return "\n".join([f"{first}, where", *lines]) if lines else f"{first}."


def type_of(tree: Dict[str, Any]) -> str:
    """The type of a node's value."""
    todo = [tree]
    while todo:
        node = todo.pop()
        if node["type"] in ("binaryExpr", "unaryExpr", "parenExpr"):
            todo += children_of(node)
            continue
        kind = node["func"]["returnType"] if node["type"] == "call" else _TYPES[node["type"]]
        if kind != "scalar":
            return TYPES[kind]
    return TYPES["scalar"]


def signature(text: str, offset: int) -> Optional[Tuple[Function, int]]:
    """The function whose arguments are around a place, and the number of the parameter there."""
    context = context_at(text, offset)
    for opening in reversed(context.openings if context else ()):
        if opening.head and opening.kind in (CALL, AGGREGATION):
            table = AGGREGATIONS if opening.head.kind == "aggregator" else FUNCTIONS
            function = table.get(opening.head.lower if opening.kind == AGGREGATION else opening.head.text)
            if function is None:
                return None
            most = len(function.parameters) - 1
            is_past = opening.commas > most and not (function.parameters and function.parameters[-1].is_repeated)
            return function, most + 1 if is_past else min(opening.commas, max(most, 0))
    return None
