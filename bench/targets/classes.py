"""The classes of queries that Prometheus 2.42 evaluates otherwise once they are printed: README.md.

Each class is a condition of the tokens of a query that the library accepts, and for some it is told by the tree once more.
"""

from __future__ import annotations

import json
import math
import re
from typing import Any, Callable, Dict, Iterator, List, NamedTuple, Optional, Sequence, Set, Tuple

import promql
from promql.token_texts import MATCHER_SIGNS, Token, code_of

ESCAPE = re.compile(r"\\(x[0-9a-fA-F]{2}|u[0-9a-fA-F]{4}|U[0-9a-fA-F]{8}|[0-7]{3}|.)", re.DOTALL)
MODIFIERS = ("on", "ignoring", "group_left", "group_right", "fill", "fill_left", "fill_right")
# The matchers of one label print in this order.
PRINTED_SIGNS = ("!=", "!~", "=", "=~")
Tokens = Sequence[Token]


# ---- strings


def escapes(tokens: Tokens) -> Iterator[str]:
    """The escapes of all strings but those between backticks, each without its backslash."""
    for token in tokens:
        if token.kind == "string" and token.text[0] != "`":
            yield from ESCAPE.findall(token.text)


def is_byte_escape(escape: str) -> bool:
    """Whether an escape, without its backslash, is one of a byte from 128 on."""
    return escape[0] == "x" and int(escape[1:], 16) >= 128 or escape[0] in "01234567" and int(escape, 8) >= 128


def has_byte_escape(tokens: Tokens) -> bool:
    """A string between `"` or `'` has an escape of a byte from 128 on."""
    return any(map(is_byte_escape, escapes(tokens)))


def has_replacement(tokens: Tokens) -> bool:
    """A string between `"` or `'` has an escape of U+FFFD."""
    return any(it.lower() in ("ufffd", "u0000fffd") for it in escapes(tokens))


# ---- numbers


def has_negative_zero(tokens: Tokens) -> bool:
    """A number of value 0 has an odd number of minus signs directly before it, which are no operators, and no `^` after it."""
    zeros = (at for at, token in enumerate(tokens) if token.kind == "number" and is_zero(token.text))
    return any(signs_before(tokens, at).count("-") % 2 == 1 for at in zeros if text_at(tokens, at + 1) != "^")


def is_zero(number: str) -> bool:
    try:
        return promql.canonical(number) == "0"
    except promql.QueryError:
        # (a length of time may have more digits than a number)
        return False


def text_at(tokens: Tokens, at: int) -> str:
    return tokens[at].text if 0 <= at < len(tokens) else ""


def signs_before(tokens: Tokens, at: int) -> str:
    """The signs directly before a token, without a binary operator, and without those after `@`."""
    first = at
    while text_at(tokens, first - 1) in ("+", "-"):
        first -= 1
    if text_at(tokens, first - 1) == "@":
        return ""
    # (after an operand the first of them has two sides)
    return "".join(it.text for it in tokens[first + ends_operand(tokens, first - 1) : at])


def ends_operand(tokens: Tokens, at: int) -> bool:
    """Whether an operator may follow this token, and no operand."""
    if at < 0:
        return False
    token = tokens[at]
    if token.text == ")":
        before = opening(tokens, at) - 1
        return not (before >= 0 and tokens[before].kind == "keyword" and tokens[before].lower in MODIFIERS)
    if token.text in ("}", "]") or token.kind in ("number", "string", "duration"):
        return True
    if token.kind == "keyword" and token.lower in ("bool", "group_left", "group_right"):
        return False
    # (a word is an operator where an operand ends before it, and else a name)
    return token.is_word and not (token.kind == "operator" and ends_operand(tokens, at - 1))


def opening(tokens: Tokens, at: int) -> int:
    """Where the parenthesis is that this one closes."""
    depth = 0
    while True:
        depth += {")": 1, "(": -1}.get(tokens[at].text, 0)
        if depth == 0:
            return at
        at -= 1


def has_rounded_moment(tokens: Tokens) -> bool:
    """A time after `@` is another millisecond as a product of doubles than as the exact decimal, rounded."""
    for at in (at for at, token in enumerate(tokens) if token.text == "@"):
        sign = tokens[at + 1].text if tokens[at + 1].text in ("+", "-") else ""
        number = tokens[at + 1 + len(sign)]
        # (else it is `start()` or `end()`)
        if number.kind == "number" and milliseconds(sign + number.text) != milliseconds(printed_moment(sign + number.text)):
            return True
    return False


def printed_moment(number: str) -> str:
    return promql.canonical(f"x @ {number}").split(" @ ")[1]


def milliseconds(number: str) -> float:
    """As Prometheus has them: the product of doubles, to the nearest whole number, a half away from zero."""
    product = float(promql.canonical(number)) * 1000
    size = math.floor(abs(product))
    return math.copysign(size + (abs(product) - size >= 0.5), product)


# ---- selectors that are arguments


class Matcher(NamedTuple):
    """A matcher; its value is a string as it is written."""

    label: str
    sign: str
    value: str


class Argument(NamedTuple):
    """A selector that is the argument of a call: but for it there are only parentheses, pluses and postfixes."""

    has_plus: bool
    matchers: Tuple[Matcher, ...]


def arguments(tokens: Tokens, *functions: str) -> Iterator[Argument]:
    """The arguments of calls of these functions that are selectors."""
    for at, token in enumerate(tokens):
        if token.text in functions and token.kind == "name" and text_at(tokens, at + 1) == "(":
            found = argument_at(tokens, at + 2)
            if found:
                yield found


def argument_at(tokens: Tokens, begin: int) -> Optional[Argument]:
    at = begin
    while tokens[at].text in ("(", "+"):
        at += 1
    before = [it.text for it in tokens[begin:at]]
    after = at + tokens[at].is_word
    matchers: Tuple[Matcher, ...] = ()
    if tokens[after].text == "{":
        close = next(it for it in range(after, len(tokens)) if tokens[it].text == "}")
        matchers = tuple(matchers_of(tokens[after:close]))
        after = close + 1
    if after == at or not closes(tokens, after, before.count("(") + 1):
        return None
    return Argument("+" in before, matchers)


def matchers_of(tokens: Tokens) -> Iterator[Matcher]:
    for at, token in enumerate(tokens):
        if token.text in MATCHER_SIGNS:
            yield Matcher(tokens[at - 1].text, token.text, tokens[at + 1].text)


def closes(tokens: Tokens, at: int, depth: int) -> bool:
    """Whether so many parentheses are closed from here on, and but for them there are only postfixes of a selector."""
    while depth > 0:
        if tokens[at].text == ")":
            depth -= 1
            at += 1
        elif tokens[at].text == "[" and tokens[at + 2].text == "]":
            at += 3
        elif tokens[at].text == "@" or tokens[at].lower == "offset":
            at += 1 + (tokens[at + 1].text in ("+", "-"))
            at += 3 if tokens[at].lower in ("start", "end") else 1
        else:
            return False
    return True


def has_plus_in_timestamp(tokens: Tokens) -> bool:
    """The argument of `timestamp` is a selector with a plus before it."""
    return any(it.has_plus for it in arguments(tokens, "timestamp"))


def has_plus_in_absent(tokens: Tokens) -> bool:
    """The argument of `absent` is a selector with a plus before it, and once it is printed its matchers give labels."""
    return any(it.has_plus and absent_labels(printed(it.matchers)) for it in arguments(tokens, "absent"))


def has_ordered_absent(tokens: Tokens) -> bool:
    """The argument of `absent` or `absent_over_time` is a selector, whose matchers give other labels in the order in which they print."""
    found = (it.matchers for it in arguments(tokens, "absent", "absent_over_time") if not it.has_plus)
    return any(absent_labels(it) != absent_labels(printed(it)) for it in found)


def printed(matchers: Sequence[Matcher]) -> List[Matcher]:
    """The matchers, those of each label in the order in which they print."""
    return sorted(matchers, key=lambda it: PRINTED_SIGNS.index(it.sign))


def absent_labels(matchers: Sequence[Matcher]) -> Dict[str, str]:
    """The labels that `absent` gives its result: those that have one equal matcher, after all their others."""
    labels: Dict[str, str] = {}
    seen: Set[str] = set()
    for label, sign, value in matchers:
        if label == "__name__":
            continue
        if sign == "=" and label not in seen:
            seen.add(label)
            labels[label] = value
        else:
            labels.pop(label, None)
    return {label: value for label, value in labels.items() if value[1:-1]}


# ---- the classes


CLASSES: Dict[str, Callable[[Tokens], bool]] = {
    "byte escape": has_byte_escape,
    "escape of U+FFFD": has_replacement,
    "negative zero": has_negative_zero,
    "plus in timestamp": has_plus_in_timestamp,
    "plus in absent": has_plus_in_absent,
    "order in absent": has_ordered_absent,
    "fraction after @": has_rounded_moment,
}
# Those that `classes_by_tree` finds, too.
TREE_CLASSES = frozenset(("negative zero", "plus in timestamp", "plus in absent", "order in absent"))


def classes_of(query: str) -> List[str]:
    """The classes of a query that the library accepts."""
    tokens = code_of(query)
    return [name for name, is_of in CLASSES.items() if is_of(tokens)]


def classes_by_tree(query: str) -> Set[str]:
    return {name for node in nodes_of(promql.parse(query, places=True)) for name in classes_of_node(query, node)}


def nodes_of(tree: Dict[str, Any]) -> Iterator[Dict[str, Any]]:
    """The nodes of a tree with places."""
    rest = [tree]
    while rest:
        node = rest.pop()
        yield node
        rest.extend(it for it in node.values() if isinstance(it, dict) and "start" in it)
        rest.extend(node.get("args", ()))


def classes_of_node(query: str, node: Dict[str, Any]) -> Iterator[str]:
    texts = [it.text for it in code_of(query[node["start"] : node["end"]])]
    if node["type"] == "numberLiteral" and node["val"] == "0" and texts.count("-") % 2 == 1:
        yield "negative zero"
    if node["type"] != "call" or node["func"]["name"] not in ("timestamp", "absent", "absent_over_time"):
        return
    selector = node["args"][0]
    while selector["type"] == "parenExpr":
        selector = selector["expr"]
    if selector["type"] not in ("vectorSelector", "matrixSelector"):
        return
    name = node["func"]["name"]
    matchers = [Matcher(it["name"], it["type"], json.dumps(it["value"])) for it in selector["matchers"]]
    # (the place of a call has the signs before it, too)
    first = texts.index("(") + 1
    has_plus = "+" in texts[first : next(at for at in range(first, len(texts)) if texts[at] not in ("(", "+"))]
    if has_plus and (name == "timestamp" or name == "absent" and absent_labels(printed(matchers))):
        yield f"plus in {name}"
    if not has_plus and name != "timestamp" and absent_labels(matchers) != absent_labels(printed(matchers)):
        yield "order in absent"
