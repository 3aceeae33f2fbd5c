"""What a query tells of the series of an expression: which labels they may have and surely have (docs/reference/label-flow.md), and between which
numbers their values are."""

from __future__ import annotations

from math import inf, isnan
from typing import Callable, Dict, FrozenSet, Generic, NamedTuple, Optional, Set, Tuple, TypeVar

from . import patterns
from .findings import NAME, Tree, fills, inner, is_comparison, matching_of, number_of

Told = TypeVar("Told")
_NONE: FrozenSet[str] = frozenset()
# The aggregations that give some of their series as they are.
_CHOOSING = ("topk", "bottomk", "limitk", "limit_ratio")
_SET_OPERATORS = ("and", "or", "unless")


class Labels(NamedTuple):
    """The labels of the series of an expression."""

    # All that there may be; any, where it is None.
    only: Optional[FrozenSet[str]] = None
    # Those that there are not, where there may be any.
    without: FrozenSet[str] = _NONE
    # Those that each series has.
    sure: FrozenSet[str] = _NONE
    # Those that somebody who wrote the query sees in each series, since they are after `by`.
    named: FrozenSet[str] = _NONE
    # Those of which each series has this value.
    values: FrozenSet[Tuple[str, str]] = frozenset()

    def may_have(self, label: str) -> bool:
        return label in self.only if self.only is not None else label not in self.without

    def lacked(self, labels: FrozenSet[str]) -> FrozenSet[str]:
        """Those of some labels that there are not."""
        return labels - self.only if self.only is not None else labels & self.without

    def kept(self, labels: FrozenSet[str]) -> Labels:
        """Only these."""
        values = frozenset(it for it in self.values if it[0] in labels)
        return Labels(labels - self.lacked(labels), _NONE, self.sure & labels, self.named & labels, values)

    def dropped(self, labels: FrozenSet[str]) -> Labels:
        # (each label with a value is sure)
        values = self.values if self.sure.isdisjoint(labels) else frozenset(it for it in self.values if it[0] not in labels)
        rest = self.sure - labels, self.named - labels, values
        return Labels(None, self.without | labels, *rest) if self.only is None else Labels(self.only - labels, _NONE, *rest)

    def added(self, *labels: str) -> Labels:
        """With more, which a series may have or not."""
        only = None if self.only is None else self.only.union(labels)
        return self.dropped(frozenset(labels))._replace(only=only, without=self.without.difference(labels))

    def both(self, other: Labels) -> Labels:
        """Those of series that have the same labels in both."""
        made = Labels(None, _NONE, self.sure | other.sure, self.named | other.named, self.values | other.values)
        if self.only is not None:
            return made._replace(only=self.only - other.lacked(self.only))
        if other.only is not None:
            return made._replace(only=other.only - self.lacked(other.only))
        return made._replace(without=self.without | other.without)

    def either(self, other: Labels) -> Labels:
        """Those of series of the one or of the other."""
        made = Labels(None, _NONE, self.sure & other.sure, self.named & other.named, self.values & other.values)
        if self.only is not None and other.only is not None:
            return made._replace(only=self.only | other.only)
        unbounded = [it for it in (self, other) if it.only is None]
        without = frozenset.intersection(*(it.without for it in unbounded))
        bounded = [it.only for it in (self, other) if it.only is not None]
        return made._replace(without=without.difference(*bounded))


_EMPTY = Labels(_NONE)
_ANY = Labels()


class _Flow(Generic[Told]):
    """What is told of the series of each node, of which each is looked at once, by a method for its type."""

    def __init__(self, others: Told) -> None:
        self._others = others
        self._found: Dict[int, Told] = {}

    def of(self, node: Tree) -> Told:
        """What is told of the series of an expression."""
        node = inner(node)
        if id(node) not in self._found:
            read: Callable[[Tree], Told] = getattr(self, f"_of_{node['type']}", lambda node: self._others)
            self._found[id(node)] = read(node)
        return self._found[id(node)]

    def _of_subquery(self, node: Tree) -> Told:
        return self.of(node["expr"])


class LabelFlow(_Flow[Labels]):
    """The labels of series."""

    def __init__(self, recorded: Callable[[str], Optional[Labels]] = lambda name: None) -> None:
        super().__init__(_EMPTY)
        # The labels of a metric that a rule records, where they are known.
        self._recorded = recorded
        self._scalars: Dict[int, bool] = {}

    def is_scalar(self, node: Tree) -> bool:
        """Whether an expression is a number, and not series."""
        node = inner(node)
        if id(node) not in self._scalars:
            self._scalars[id(node)] = self._is_scalar(node)
        return self._scalars[id(node)]

    def _is_scalar(self, node: Tree) -> bool:
        kind = node["type"]
        if kind == "unaryExpr":
            return self.is_scalar(node["expr"])
        if kind == "binaryExpr":
            return self.is_scalar(node["lhs"]) and self.is_scalar(node["rhs"])
        return kind == "numberLiteral" or bool(kind == "call" and node["func"]["returnType"] == "scalar")

    def _of_vectorSelector(self, node: Tree) -> Labels:
        if "or_matchers" in node:
            return _ANY
        equal = {(it["name"], it["value"]) for it in node["matchers"] if it["type"] == "="}
        absent = frozenset(name for name, value in equal if not value)
        sure = frozenset(it["name"] for it in node["matchers"] if needs_value(it)) - absent - {NAME}
        labels = Labels(None, absent, sure, values=frozenset(it for it in equal if it[0] in sure))
        recorded = self._recorded(name_of(node))
        return labels.both(recorded) if recorded else labels

    _of_matrixSelector = _of_vectorSelector

    _of_unaryExpr = _Flow._of_subquery

    def _of_aggregation(self, node: Tree) -> Labels:
        below = self.of(node["expr"])
        if node["op"] in _CHOOSING:
            return below
        labels = frozenset(node["grouping"])
        made = below.dropped(labels | {NAME}) if node["without"] else below.kept(labels)._replace(named=below.kept(labels).only or _NONE)
        parameter = node["param"] and inner(node["param"])
        return made.added(parameter["val"]) if node["op"] == "count_values" and parameter else made

    def _of_binaryExpr(self, node: Tree) -> Labels:
        left, right = self.of(node["lhs"]), self.of(node["rhs"])
        if node["op"] == "or":
            return left.either(right)
        if node["op"] in _SET_OPERATORS:
            return left
        scalars = [self.is_scalar(node[side]) for side in ("lhs", "rhs")]
        if any(scalars):
            return right if scalars[0] else left
        matching = matching_of(node)
        labels = frozenset(matching["labels"])
        if isinstance(matching["card"], dict):
            ((card, included),) = matching["card"].items()
            many = left if card == "many-to-one" else right
            made = many.added(*included)
            return made.either(right if many is left else left) if fills(node) else made
        joined = left.either(right) if fills(node) else left.both(right)
        return joined.kept(labels) if matching["on"] else joined.dropped(labels)

    def _of_call(self, node: Tree) -> Labels:
        name, arguments = node["func"]["name"], node["args"]
        if name in ("absent", "absent_over_time"):
            return _of_absent(inner(arguments[0]))
        if name in ("vector", "scalar") or node["func"]["returnType"] == "scalar" or not arguments:
            return _EMPTY
        if name in ("histogram_quantile", "histogram_fraction"):
            return self.of(arguments[-1]).dropped(frozenset(("le",)))
        if name in ("label_replace", "label_join"):
            label = inner(arguments[1])
            return self.of(arguments[0]).added(label["val"]) if label["type"] == "stringLiteral" else _ANY
        if name in ("info", "histogram_quantiles"):
            return _ANY
        vectors = [it for it, kind in zip(arguments, node["func"]["argTypes"]) if kind in ("vector", "matrix")]
        return self.of(vectors[0]) if len(vectors) == 1 else _ANY


def name_of(node: Tree) -> str:
    """The metric that a selector reads, or nothing."""
    names = [it["value"] for it in node["matchers"] if it["name"] == NAME and it["type"] == "="]
    return str(node["name"] or "".join(names[:1]))


def needs_value(matcher: Tree) -> bool:
    """Whether a series without the label does not match."""
    kind, value = matcher["type"], matcher["value"]
    if kind in ("=", "!="):
        return bool((value == "") == (kind == "!="))
    return patterns.matches(value, "") is (kind == "!~")


def _of_absent(node: Tree) -> Labels:
    """A series has the labels of matchers with `=`, but for those with another matcher after it."""
    if node["type"] not in ("vectorSelector", "matrixSelector") or "or_matchers" in node:
        return _EMPTY
    labels: Dict[str, str] = {}
    equal: Set[str] = set()
    for matcher in node["matchers"]:
        name = matcher["name"]
        if matcher["type"] == "=" and matcher["value"] and name != NAME and name not in equal:
            equal.add(name)
            labels[name] = matcher["value"]
        else:
            labels.pop(name, None)
    return Labels(frozenset(labels), _NONE, frozenset(labels), values=frozenset(labels.items()))


TURNED = {"<": ">", ">": "<", "<=": ">=", ">=": "<=", "==": "==", "!=": "!="}
# A number, or what is next to it: a little less with -1, a little more with 1.
_Bound = Tuple[float, int]


class Range(NamedTuple):
    """The numbers from `low` to `high`; whether there may be values that are no numbers."""

    low: _Bound = (-inf, 0)
    high: _Bound = (inf, 0)
    has_nan: bool = False

    def is_empty(self) -> bool:
        return self.low > self.high

    def within(self, other: Range) -> Range:
        """The numbers of both."""
        return Range(max(self.low, other.low), min(self.high, other.high), self.has_nan and other.has_nan)

    def around(self, other: Range) -> Range:
        """The least range that has the numbers of each."""
        return Range(min(self.low, other.low), max(self.high, other.high), self.has_nan or other.has_nan)

    def __str__(self) -> str:
        low = f"{'more than' if self.low[1] else 'at least'} {self.low[0]:g}" if self.low[0] > -inf else ""
        high = f"{'less than' if self.high[1] else 'at most'} {self.high[0]:g}" if self.high[0] < inf else ""
        return " and ".join(filter(None, (low, high)))


def _whole(low: float, high: float = inf) -> Range:
    return Range((low, 0), (high, 0))


_ANY_VALUE = Range(has_nan=True)
_ONE, _NOT_NEGATIVE = _whole(1, 1), Range((0, 0), has_nan=True)
_TIMES = {"minute": (0, 59), "hour": (0, 23), "day_of_week": (0, 6), "day_of_month": (1, 31), "days_in_month": (28, 31)}
_TIMES.update({"day_of_year": (1, 366), "month": (1, 12)})
_CALLS = {
    **dict.fromkeys(("absent", "absent_over_time", "present_over_time"), _ONE),
    **dict.fromkeys(("changes", "resets"), _whole(0)),
    **dict.fromkeys(("abs", "sqrt", "stddev_over_time", "stdvar_over_time"), _NOT_NEGATIVE),
    "count_over_time": _whole(1),
    **{name: _whole(*ends) for name, ends in _TIMES.items()},
}
_AGGREGATIONS = {"count": _whole(1), "group": _ONE, "stddev": _NOT_NEGATIVE, "stdvar": _NOT_NEGATIVE}
# What gives values that are among those below it.
_KEEPING = ("bottomk", "limit_ratio", "limitk", "max", "min", "topk", "label_join", "label_replace", "sort", "sort_desc")
_KEEPING_OF_RANGES = ("last_over_time", "max_over_time", "min_over_time")


def passing(operator: str, number: float) -> Range:
    """The numbers for which a comparison with a number is true, or those around them."""
    if operator == "!=" or isnan(number):
        return _ANY_VALUE
    low = (number, int(operator == ">")) if operator in (">", ">=", "==") else (-inf, 0)
    high = (number, -int(operator == "<")) if operator in ("<", "<=", "==") else (inf, 0)
    return Range(low, high)


class ValueFlow(_Flow[Range]):
    """The values of series."""

    def __init__(self) -> None:
        super().__init__(_ANY_VALUE)

    def _of_aggregation(self, node: Tree) -> Range:
        return self.of(node["expr"]) if node["op"] in _KEEPING else _AGGREGATIONS.get(node["op"], _ANY_VALUE)

    def _of_call(self, node: Tree) -> Range:
        name = node["func"]["name"]
        return self.of(node["args"][0]) if name in _KEEPING + _KEEPING_OF_RANGES else _CALLS.get(name, _ANY_VALUE)

    def _of_binaryExpr(self, node: Tree) -> Range:
        left, right = node["lhs"], node["rhs"]
        if node["op"] == "or":
            return self.of(left).around(self.of(right))
        if not is_comparison(node) or fills(node):
            return self.of(left) if node["op"] in ("and", "unless") else _ANY_VALUE
        if node["bool"]:
            return _whole(0, 1)
        compared, values = condition(node)
        return self.of(compared).within(values)


def condition(node: Tree) -> Tuple[Tree, Range]:
    """What a comparison gives, and which values of that a number on the other side lets through."""
    left, right = number_of(node["lhs"]), number_of(node["rhs"])
    if left is not None:
        return inner(node["rhs"]), passing(TURNED[node["op"]], left)
    return inner(node["lhs"]), _ANY_VALUE if right is None else passing(node["op"], right)
