"""Rules about counters and ranges: P201 to P208."""

from __future__ import annotations

from typing import Iterator, Sequence, Tuple

from .findings import Remark, Severity, Tree, duration_text, inner
from .subject import Subject
from .table import rule

_RATES = ("rate", "irate", "increase")
# What ends the name of a counter, or of a part of a histogram or a summary.
_COUNTER_ENDINGS = ("_total", "_count", "_sum", "_bucket")
_OF_GAUGES = ("delta", "idelta", "deriv", "predict_linear", "double_exponential_smoothing")
_SUMS = ("sum", "avg", "min", "max", "count", "group", "stddev", "stdvar", "quantile")


def _over_metrics(subject: Subject, functions: Sequence[str]) -> Iterator[Tuple[Tree, str, str]]:
    """The calls of functions whose first argument is the range of a metric: each with its function and the metric."""
    for call in subject.calls(*functions):
        node = inner(call["args"][0])
        name = subject.metric(node) if node["type"] == "matrixSelector" else None
        if name:
            yield call, call["func"]["name"], name


def _over_subqueries(subject: Subject, kind: str) -> Iterator[Tuple[Tree, str, Tree]]:
    """The rates over subqueries of this kind of node: each with its function and that node."""
    for call in subject.calls(*_RATES):
        node = inner(call["args"][0])
        below = inner(node["expr"]) if node["type"] == "subquery" else node
        if below is not node and below["type"] == kind:
            yield call, call["func"]["name"], below


@rule("P201", "rate-of-recorded", Severity.WARNING, needs="call")
def rate_of_recorded(subject: Subject) -> Iterator[Remark]:
    """A rate of a metric whose name is that of a recording rule for something else than a counter."""
    for call, function, name in _over_metrics(subject, _RATES):
        if ":" in name.strip(":") and not name.endswith(_COUNTER_ENDINGS):
            yield Remark(subject.span(call), f"`{function}` needs a counter, and `{name}` is recorded by a rule")


@rule("P202", "rate-of-no-counter", Severity.INFO, is_default=False, needs="call")
def rate_of_no_counter(subject: Subject) -> Iterator[Remark]:
    """A rate of a metric whose name has no ending of a counter."""
    for call, function, name in _over_metrics(subject, _RATES):
        if ":" not in name and not name.endswith(_COUNTER_ENDINGS):
            endings = ", ".join(f"`{it}`" for it in _COUNTER_ENDINGS)
            message = f"`{function}` needs a counter, and `{name}` is none by its name, which ends in none of {endings}"
            yield Remark(subject.span(call), message)


@rule("P203", "counter-as-gauge", Severity.WARNING, needs="call")
def counter_as_gauge(subject: Subject) -> Iterator[Remark]:
    """A function for gauges over a counter, which falls to zero where its process starts anew."""
    for call, function, name in _over_metrics(subject, _OF_GAUGES):
        if name.endswith(("_total", "_bucket")):
            other = "`rate` or `increase`" if function in ("delta", "idelta") else "`rate` in a subquery"
            yield Remark(subject.span(call), f"`{function}` is for gauges, and `{name}` is a counter: use {other}")


@rule("P204", "rate-of-sum", Severity.ERROR, needs="call")
def rate_of_sum(subject: Subject) -> Iterator[Remark]:
    """A rate over a subquery of an aggregation, where resets of the single counters are lost."""
    for call, function, below in _over_subqueries(subject, "aggregation"):
        op = below["op"]
        if op in _SUMS:
            message = f"`{function}` of `{op}` sees no reset of a single counter: take the `{function}` first, then the `{op}`"
            yield Remark(subject.span(call), message)


@rule("P205", "rate-of-rate", Severity.ERROR, needs="call")
def rate_of_rate(subject: Subject) -> Iterator[Remark]:
    """A rate over a subquery of what goes up and down."""
    for call, function, below in _over_subqueries(subject, "call"):
        other = below["func"]["name"]
        if other in (*_RATES, *_OF_GAUGES):
            yield Remark(subject.span(call), f"`{function}` needs a counter, and what `{other}` gives is none")


@rule("P206", "irate-in-alert", Severity.WARNING, needs="call")
def irate_in_alert(subject: Subject) -> Iterator[Remark]:
    """`irate` in an alert, which looks at two samples and so forgets at once."""
    if subject.context.alert:
        for call in subject.calls("irate", "idelta"):
            function = call["func"]["name"]
            other = "rate" if function == "irate" else "delta"
            yield Remark(subject.head(call), f"`{function}` looks at the last two samples alone: use `{other}` in an alert")


@rule("P207", "short-range", Severity.WARNING, needs="matrixSelector")
def short_range(subject: Subject) -> Iterator[Remark]:
    """A range in which there are too few samples, or between which samples are never looked at."""
    for node in subject.of_type("matrixSelector"):
        message = _why_short(subject, node)
        # (in a subquery a node is evaluated many times for each evaluation of the query)
        if not message or subject.is_below(node, _is_subquery):
            continue
        span = subject.place(node).range or subject.span(node)
        if subject.is_written(subject.text[span.start : span.end]):
            yield Remark(span, message)


def _why_short(subject: Subject, node: Tree) -> str:
    """Why the range of a selector is short, or nothing."""
    length, text = node["range"], duration_text(node["range"])
    recorded = subject.context.recorded.get(subject.metric(node) or "")
    interval = subject.context.interval
    call = subject.parent(node)
    is_rate = call and call["type"] == "call" and call["func"]["name"] in (*_RATES, *_OF_GAUGES)
    if recorded and is_rate and length < 2 * recorded:
        return f"{text} may have one sample alone, since a rule records the metric every {duration_text(recorded)}"
    if interval and length < interval:
        return f"the group is evaluated every {duration_text(interval)}, and so what is not in these {text} is never seen"
    return ""


def _is_subquery(node: Tree) -> bool:
    return bool(node["type"] == "subquery")


@rule("P208", "quantile-of-counter", Severity.WARNING, needs="call")
def quantile_of_counter(subject: Subject) -> Iterator[Remark]:
    """A quantile of buckets as they are, which count all since the start of their process."""
    for call in subject.calls("histogram_quantile"):
        node = inner(call["args"][1])
        while node["type"] == "aggregation":
            node = inner(node["expr"])
        name = subject.metric(node) if node["type"] == "vectorSelector" else None
        if name and name.endswith("_bucket") and ":" not in name:
            message = f"`{name}` counts since the start of its process: take its `rate`, of which the quantile is that of now"
            yield Remark(subject.span(node), message)
