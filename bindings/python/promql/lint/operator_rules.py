"""Rules about operators, about numbers beside them, and about texts that are arguments: P301 to P310."""

from __future__ import annotations

import math
import re
from typing import Dict, Iterator, Optional, Set, Tuple

from ..checked_queries import QueryChecker, pattern_size
from ..labels import children_of
from .findings import Remark, Severity, Tree, fills, inner, is_comparison, matching_of, number_of, requoted
from .flow import TURNED, condition, passing
from .go_patterns import why_rejected as why_no_pattern_of_go
from .subject import Subject
from .table import rule

# What gives at least 1, or nothing at all.
_COUNTS = ("count", "group")
_COUNTING_CALLS = ("count_over_time", "absent", "absent_over_time", "present_over_time")
# What compares a count to ask whether there is little or nothing.
_OF_FEW = ("==", "<", "<=")


def _comparisons_with_number(subject: Subject) -> Iterator[Tuple[Tree, Tree, str, float]]:
    """Each comparison with a number: it, its other side, and the operator and the number as they are to its right."""
    for node in filter(is_comparison, subject.nodes):
        left, right = number_of(node["lhs"]), number_of(node["rhs"])
        if left is None and right is not None and subject.is_as_written(node["rhs"]):
            yield node, inner(node["lhs"]), node["op"], right
        elif right is None and left is not None and subject.is_as_written(node["lhs"]):
            yield node, inner(node["rhs"]), TURNED[node["op"]], left


@rule("P301", "constant-comparison", Severity.WARNING, needs="binaryExpr")
def constant_comparison(subject: Subject) -> Iterator[Remark]:
    """A comparison whose sides are constants."""
    comparisons = list(filter(is_comparison, subject.nodes))
    constants = _constants(subject) if comparisons else set()
    for node in comparisons:
        if id(node["lhs"]) in constants and id(node["rhs"]) in constants and subject.is_as_written(node):
            yield Remark(subject.span(node), f"`{subject.shown(node)}` compares constants: it is always the same")


def _constants(subject: Subject) -> Set[int]:
    """The nodes that are constants."""
    found: Set[int] = set()
    # (those below a node come before it)
    for node in reversed(subject.nodes):
        if node["type"] == "numberLiteral" or _keeps_constants(node) and all(id(it) in found for it in children_of(node)):
            found.add(id(node))
    return found


def _keeps_constants(node: Tree) -> bool:
    """Whether a node of constants is one."""
    kind = node["type"]
    return kind in ("parenExpr", "unaryExpr", "binaryExpr") or kind == "call" and node["func"]["name"] in ("vector", "pi")


@rule("P302", "equal-to-fraction", Severity.WARNING, needs="binaryExpr")
def equal_to_fraction(subject: Subject) -> Iterator[Remark]:
    """`==` or `!=` with a number that is not whole."""
    for node, _, operator, number in _comparisons_with_number(subject):
        if operator in ("==", "!=") and math.isfinite(number) and number % 1:
            message = f"a computed number is seldom equal to {number}: compare with a range around it"
            yield Remark(subject.span(node), message)


@rule("P303", "never-true", Severity.ERROR, needs="binaryExpr")
def never_true(subject: Subject) -> Iterator[Remark]:
    """A comparison with a number that a count never has: where there is nothing to count, it has no value, and not 0."""
    for node, side, operator, number in _comparisons_with_number(subject):
        name = _counting(side)
        if not name or node["bool"] or operator not in _OF_FEW:
            continue
        if subject.values.of(side).within(passing(operator, number)).is_empty():
            is_one = not name.startswith("count")
            tells = f"`{name}` gives 1 or nothing" if is_one else f"of nothing `{name}` gives nothing and not 0"
            hint = "" if name.startswith("absent") else "; `absent(..)` and `.. or vector(0)` ask for that"
            message = f"never true: {tells}{hint}"
            yield Remark(subject.span(node), message)


def _counting(node: Tree) -> Optional[str]:
    """The name of an aggregation or a call whose value is at least 1 where there is one."""
    if node["type"] == "aggregation" and node["op"] in _COUNTS:
        return str(node["op"])
    if node["type"] == "call" and node["func"]["name"] in _COUNTING_CALLS:
        return str(node["func"]["name"])
    return None


@rule("P304", "quantile-out-of-range", Severity.ERROR)
def quantile_out_of_range(subject: Subject) -> Iterator[Remark]:
    """A quantile that is not from 0 to 1."""
    asked = [(node, node["args"][0]) for node in subject.calls("histogram_quantile", "quantile_over_time")]
    asked += [(node, node["param"]) for node in subject.of_type("aggregation") if node["op"] == "quantile"]
    for node, parameter in asked:
        number = number_of(parameter)
        if number is not None and not 0 <= number <= 1 and subject.is_as_written(parameter):
            message = f"a quantile is from 0 to 1: with {number:g} it is no number of the series"
            yield Remark(subject.span(parameter), message)


@rule("P305", "bool-kept-as-filter", Severity.WARNING, needs="binaryExpr")
def bool_kept_as_filter(subject: Subject) -> Iterator[Remark]:
    """`bool` of a comparison whose 0 and 1 are compared again as if it filtered, by `and` or `unless`."""
    for node in subject.of_type("binaryExpr"):
        if node["op"] not in ("and", "unless"):
            continue
        side = inner(node["rhs"])
        if is_comparison(side) and side["bool"]:
            span = subject.place(side).bool or subject.span(side)
            message = f"`{node['op']}` asks whether there is a value, and with `bool` there always is one: leave `bool` out"
            yield Remark(span, message)


@rule("P306", "no-bucket-label", Severity.ERROR, needs="call")
def no_bucket_label(subject: Subject) -> Iterator[Remark]:
    """A quantile of buckets without the label `le`."""
    calls = list(subject.calls("histogram_quantile"))
    of_buckets = _of_buckets(subject) if calls else set()
    for node in calls:
        argument = node["args"][1]
        if id(argument) in of_buckets and not subject.labels.of(argument).may_have("le"):
            message = "`histogram_quantile` needs the label `le` of the buckets, and here it is not kept: add it to `by`"
            yield Remark(subject.span(argument), message)


def _of_buckets(subject: Subject) -> Set[int]:
    """The nodes below which there are selectors, and of buckets alone."""
    found: Dict[int, Optional[bool]] = {}
    # (those below a node come before it)
    for node in reversed(subject.nodes):
        if node["type"] in ("vectorSelector", "matrixSelector"):
            found[id(node)] = (subject.metric(node) or "").endswith("_bucket")
        else:
            told = [it for it in (found[id(child)] for child in children_of(node)) if it is not None]
            found[id(node)] = all(told) if told else None
    return {node for node, is_of_buckets in found.items() if is_of_buckets}


@rule("P307", "experimental-function", Severity.INFO, is_default=False, needs="call")
def experimental_function(subject: Subject) -> Iterator[Remark]:
    """A function that Prometheus has only where it is asked for."""
    for node in subject.of_type("call"):
        if node["func"]["experimental"]:
            name = node["func"]["name"]
            message = f"`{name}` is experimental: Prometheus needs `--enable-feature=promql-experimental-functions`"
            yield Remark(subject.head(node), message)


@rule("P308", "contradiction", Severity.ERROR, needs="binaryExpr")
def contradiction(subject: Subject) -> Iterator[Remark]:
    """A comparison that no value passes, or conditions of one expression of which no value passes both."""
    for node, side, operator, number in _comparisons_with_number(subject):
        values, is_told_by_p303 = subject.values.of(side), _counting(side) and operator in _OF_FEW
        if not is_told_by_p303 and not values.is_empty() and values.within(passing(operator, number)).is_empty():
            yield Remark(subject.span(node), f"never true: here the values are {values}")
    for node in subject.of_type("binaryExpr"):
        message = _why_of_same(node)
        if message and subject.is_as_written(node):
            yield Remark(subject.head(node), message)


def _why_of_same(node: Tree) -> str:
    """Why an operator between two parts of which both are about the same gives nothing; or nothing where it does."""
    operator, left, right = node["op"], inner(node["lhs"]), inner(node["rhs"])
    if matching_of(node)["labels"] or matching_of(node)["on"] or fills(node):
        return ""
    if operator == "and" and is_comparison(left) and is_comparison(right) and not left["bool"] and not right["bool"]:
        (one, first), (other, second) = condition(left), condition(right)
        is_never = first.within(second).is_empty() and one == other
        return "never true: no value of the same expression passes both conditions" if is_never else ""
    if operator in ("<", ">", "!=", "unless") and number_of(left) is None and left == right:
        return "never true: both sides are the same" + (", and only what is no number differs from itself" if operator == "!=" else "")
    return ""


@rule("P309", "always-true", Severity.WARNING, needs="binaryExpr")
def always_true(subject: Subject) -> Iterator[Remark]:
    """A comparison that every value passes."""
    for node, side, operator, number in _comparisons_with_number(subject):
        values = subject.values.of(side)
        # (`> 0` and `== 1` are how one asks whether there is a count)
        believed = values._replace(low=(0, 0)) if values.low == (1, 0) else values
        if operator != "!=" and not values.has_nan and not values.is_empty() and believed == believed.within(passing(operator, number)):
            yield Remark(subject.span(node), f"always true: here the values are {values}")


# A name that `by` takes without quotes; the points are those of OpenTelemetry.
_LABEL = re.compile(r"[A-Za-z_][\w.]*", re.ASCII)
# What the patterns of a text measure at most that is tried (docs/reference/programs.md, "Limits of a query").
_MOST_MEASURED = 700


@rule("P310", "failing-argument", Severity.ERROR)
def failing_argument(subject: Subject) -> Iterator[Remark]:
    """A pattern that is none, or a text that is no name of a label, where a function or an aggregation needs one."""
    for node, is_pattern in _texts(subject):
        why = _why_no_pattern(node["val"]) if is_pattern else _why_no_label(node["val"])
        if why and subject.is_written(node["val"]):
            yield Remark(subject.span(node), why)


def _texts(subject: Subject) -> Iterator[Tuple[Tree, bool]]:
    """The texts that have to be names of labels, or patterns."""
    for node in subject.of_type("aggregation"):
        if node["op"] == "count_values":
            yield inner(node["param"]), False
    for call in subject.calls("label_replace", "label_join"):
        arguments = list(map(inner, call["args"]))
        yield arguments[1], False
        is_join = call["func"]["name"] == "label_join"
        yield from ((it, not is_join) for it in arguments[3 if is_join else 4 :])


def _why_no_label(text: str) -> str:
    why = "Prometheus before 3.0 always fails here" if text else "Prometheus always fails here"
    return "" if _LABEL.fullmatch(text) else f"{requoted('', text)} is no name of a label: {why}"


def _why_no_pattern(pattern: str) -> str:
    """Why a pattern is none, as the library says it of a matcher."""
    if why_rejected(f"{{a=~{requoted('', pattern)},b='c'}}").startswith("illegal regex"):
        return "the text is no pattern: the function always fails"
    reason = why_no_pattern_of_go(pattern)
    return f"Prometheus rejects the pattern: {reason}" if reason else ""


def why_rejected(query: str) -> str:
    """Why the library rejects a text that has to be a query, too; nothing where it does not, or where the patterns are large."""
    error = None if pattern_size(query) > _MOST_MEASURED else QueryChecker.error(query)
    return str(getattr(error, "reason", ""))
