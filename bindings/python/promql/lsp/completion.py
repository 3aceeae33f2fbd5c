"""What may be written at a place of a query."""

from __future__ import annotations

from typing import Any, Callable, Dict, Iterable, Iterator, List, NamedTuple, Optional

import promql

from ..token_texts import MATCHER_SIGNS, Token
from .context import BRACES, BRACKETS, LABEL_LIST, Context, context_at
from .functions import AGGREGATIONS, FUNCTIONS, WORDS, Function
from .names import Known, Names, known, names_of, plain

# The kinds of the protocol.
_FUNCTION, _FIELD, _VARIABLE, _VALUE, _KEYWORD, _OPERATOR = 3, 5, 6, 12, 14, 24
_DURATIONS = ("1m", "5m", "10m", "15m", "30m", "1h", "6h", "12h", "1d", "1w")
# (those that the library takes after what is written)
_UNITS = ("s", "m", "h", "d", "w", "y", "ms")
_COMPARISONS = ("==", "!=", "<=", "<", ">=", ">")
_MATCHING_WORDS = ("on", "ignoring", "group_left", "group_right")
_NOTHING = Token("", "", 0, 0)
# A list is not longer than this, and then says that there are more.
MOST_ITEMS = 500


class Item(NamedTuple):
    label: str
    kind: int
    detail: str = ""
    documentation: str = ""
    # What is written, with `$0` for the place after it, where that is not the label.
    snippet: str = ""
    # Whether it goes with the metric.
    is_near: bool = False


class Completion(NamedTuple):
    items: List[Item]
    # The part of the query that an item replaces.
    start: int
    end: int


def complete(text: str, offset: int, knows: Callable[[str, str], Known]) -> Optional[Completion]:
    """What may be written, of the names that are known of a metric and a label."""
    context = context_at(text, offset)
    if context is None:
        return None
    word, last, inner = context.word, context.previous(), context.inner
    # (a number in brackets, or after `offset`, belongs to a unit)
    is_time = inner and inner.kind == BRACKETS or (context.previous(2) or _NOTHING).lower == "offset"
    if last and last.end == offset and last.text[-1].isdigit() and is_time:
        return Completion(list(_units(last.text)), last.start, offset)
    # (what is being written is no name yet)
    own = names_of(text[: word.start] + text[word.end :] if word else text)
    label = context.previous(2) if inner and inner.kind == BRACES and last and last.text in MATCHER_SIGNS else None
    metric = _metric(context, own)
    names = known([own], metric)
    names.add(knows(metric, plain(label) if label else ""))
    if word and word.is_quoted:
        return Completion(list(_in_string(context, names)), word.start + 1, offset)
    return Completion(list(_items(context, names)), word.start if word else offset, offset)


def _metric(context: Context, own: Names) -> str:
    """The metric before the braces around a place; for a list of labels the first one of the query."""
    inner = context.inner
    if inner and inner.kind == LABEL_LIST:
        return own.metrics[0].name if own.metrics else ""
    return inner.head.text if inner and inner.kind == BRACES and inner.head else ""


def _units(number: str) -> Iterator[Item]:
    for unit in _UNITS:
        try:
            promql.check(f"a[{number}{unit}]")
        except ValueError:
            continue
        yield Item(number + unit, _VALUE, "duration")


def _in_string(context: Context, known: Known) -> Iterator[Item]:
    """The values of a label, or in a string alone the names of metrics."""
    inner, sign, label = context.inner, context.previous(), context.previous(2)
    if not inner or inner.kind != BRACES or not sign:
        return
    if sign.text in MATCHER_SIGNS and label:
        name = label.text.strip("\"'`")
        values = known.metrics if name == "__name__" else known.values.get(name, set())
        yield from _each(values, _VALUE, f"value of {name}")
    elif sign.text in ("{", ","):
        yield from _each(known.metrics, _VARIABLE, "metric")


def _items(context: Context, known: Known) -> Iterator[Item]:
    inner = context.inner
    if inner and inner.kind == BRACES:
        yield from _in_braces(context, known)
    elif inner and inner.kind == BRACKETS:
        yield from _each(_DURATIONS, _VALUE, "duration")
    elif inner and inner.kind == LABEL_LIST:
        yield from (Item(label, _FIELD, "label", is_near=label in known.near) for label in sorted(known.labels | known.near))
    elif _closed_by(context) in _MATCHING_WORDS:
        if _closed_by(context) in ("on", "ignoring"):
            yield from map(_word, ("group_left", "group_right"))
        yield from _operands(context, known)
    elif _ends_operand(context.previous()):
        yield from _after_operand(context)
    else:
        yield from _operands(context, known)


def _in_braces(context: Context, known: Known) -> Iterator[Item]:
    last = context.previous()
    if last and (last.text in ("{", ",") or last.kind == "operator" and last.is_word):
        for label in sorted(known.labels | known.near | {"__name__"}):
            yield Item(label, _FIELD, "label", "", f'{label}="$0"', label in known.near)
    elif last and last.is_sign:
        name = context.previous(2)
        values = known.values.get(name.text, set()) if name else set()
        yield from (Item(f'"{value}"', _VALUE, "value") for value in sorted(values))
    elif last and last.kind != "string":
        yield from _each(MATCHER_SIGNS, _OPERATOR, "")


def _ends_operand(last: Optional[Token]) -> bool:
    """Whether an operator may come after this token, and no operand."""
    if last is None or last.kind in ("operator", "error"):
        return False
    if last.kind == "keyword":
        return last.lower in ("smoothed", "anchored")
    return last.kind != "punctuation" or last.text in (")", "}", "]")


def _after_operand(context: Context) -> Iterator[Item]:
    last = context.previous()
    words = ["and", "or", "unless", "atan2", "offset"]
    if last and (last.kind == "aggregator" or _closed_by(context) == "aggregator"):
        words += ["by", "without"]
    if last and last.text == "]":
        words += ["smoothed", "anchored"]
    return map(_word, words)


def _closed_by(context: Context) -> str:
    """What is before the parentheses that end here: the kind of its token, or a keyword itself."""
    depth = 0
    for number in range(len(context.before) - 1, -1, -1):
        token = context.before[number]
        depth += {")": 1, "(": -1}.get(token.text, 0)
        if depth == 0:
            head = context.before[number - 1] if number and token.text == "(" else None
            return "" if head is None else head.lower if head.kind == "keyword" else head.kind
    return ""


def _operands(context: Context, known: Known) -> Iterator[Item]:
    last = context.previous()
    if last and last.kind == "operator" and last.text not in ("@", "="):
        yield from map(_word, [*(["bool"] if last.text in _COMPARISONS else []), "on", "ignoring"])
    if last and last.text == "@":
        yield from (Item(f"{name}()", _KEYWORD, "", WORDS[name]) for name in ("start", "end"))
        return
    if last and last.kind == "keyword" and last.lower == "offset":
        yield from _each(_DURATIONS, _VALUE, "duration")
        return
    for function in (*FUNCTIONS.values(), *AGGREGATIONS.values()):
        yield _called(function)
    yield from _each(known.metrics, _VARIABLE, "metric")


def _called(function: Function) -> Item:
    needed = [parameter for parameter in function.parameters if not parameter.is_optional]
    places = ", ".join(f"${{{number}:{parameter.name}}}" for number, parameter in enumerate(needed, 1))
    return Item(function.name, _FUNCTION, function.signature, function.sentence, f"{function.name}({places})$0")


def _word(word: str) -> Item:
    return Item(word, _KEYWORD, "", WORDS[word])


def _each(names: Iterable[str], kind: int, detail: str) -> Iterator[Item]:
    for name in sorted(names) if isinstance(names, set) else names:
        yield Item(name, kind, detail)


def shown(item: Item, edit_range: Any, snippets: bool) -> Dict[str, Any]:
    """An item as the protocol has it."""
    text = item.snippet if item.snippet and snippets else item.label
    found: Dict[str, Any] = {"label": item.label, "kind": item.kind, "textEdit": {"range": edit_range, "newText": text}}
    if item.is_near:
        # (before all others)
        found["sortText"] = f" {item.label}"
    if item.detail:
        found["detail"] = item.detail
    if item.documentation:
        found["documentation"] = item.documentation
    if text != item.label:
        found["insertTextFormat"] = 2
    return found
