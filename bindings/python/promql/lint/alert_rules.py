"""Rules about the rules of a file: alerts, P501 to P505, and the metrics that rules record, P701 to P703."""

from __future__ import annotations

from typing import Iterator

from .findings import Remark, Severity, Tree, inner, is_comparison
from .operator_rules import why_rejected
from .subject import Subject
from .table import rule


@rule("P501", "alert-without-condition", Severity.WARNING, needs="alert")
def alert_without_condition(subject: Subject) -> Iterator[Remark]:
    """An alert whose query has a value as long as its series are there."""
    if subject.context.alert and not _is_meant_to_fire(subject.tree) and not has_condition(subject.tree):
        if not any(is_comparison(node) and node["bool"] for node in subject.nodes):
            message = "no condition: the alert fires as long as there are series, since nothing of the query compares their values"
            yield Remark(subject.whole, message)


@rule("P502", "bool-in-alert", Severity.ERROR, needs="alert")
def bool_in_alert(subject: Subject) -> Iterator[Remark]:
    """An alert that fires for 0 as for 1."""
    node = inner(subject.tree)
    if not subject.context.alert or not is_comparison(node) or not node["bool"] or has_condition(node):
        return
    yield Remark(subject.place(node).bool or subject.span(node), "the alert fires always: with `bool` a comparison has the value 0 where it is false")


@rule("P503", "lost-template-label", Severity.WARNING, needs="alert")
def lost_template_label(subject: Subject) -> Iterator[Remark]:
    """A label that a template of the alert shows, and that its series cannot have."""
    for label in sorted(subject.context.template_labels):
        if label != "__name__" and not subject.labels.of(subject.tree).may_have(label):
            message = f"a template has `$labels.{label}`, which is empty: no series of the query has this label"
            yield Remark(subject.whole, message)


@rule("P504", "value-in-label", Severity.WARNING)
def value_in_label(subject: Subject) -> Iterator[Remark]:
    """A label of an alert with the value of the query in it."""
    for label in sorted(subject.context.value_labels):
        message = f"the label `{label}` changes with the value, and each time that is another alert: show the value in an annotation"
        yield Remark(subject.whole, message)


@rule("P505", "template-query", Severity.ERROR)
def template_query(subject: Subject) -> Iterator[Remark]:
    """A query in a template of the alert that is rejected."""
    for query in subject.context.template_queries:
        reason = why_rejected(query)
        if reason:
            yield Remark(subject.whole, f"the template's query `{query}` is rejected: {reason}")


def _is_meant_to_fire(node: Tree) -> bool:
    """Whether an alert always fires, as its author surely knows: to show that alerts arrive."""
    node = inner(node)
    return node["type"] == "numberLiteral" or node["type"] == "call" and node["func"]["name"] in ("vector", "time")


def has_condition(node: Tree) -> bool:
    """Whether an expression may have no value although its series are there."""
    node = inner(node)
    kind = node["type"]
    if kind in ("vectorSelector", "matrixSelector"):
        # (a rule may record what is there in bad times alone)
        return node["name"] is None or ":" in node["name"] or node["name"] in ("ALERTS", "ALERTS_FOR_STATE")
    if kind == "binaryExpr":
        left, right = has_condition(node["lhs"]), has_condition(node["rhs"])
        if node["op"] == "or":
            return left and right
        return left or right or node["op"] in ("and", "unless") or is_comparison(node) and not node["bool"]
    if kind == "call":
        name = node["func"]["name"]
        if name in ("absent", "absent_over_time"):
            return True
        return name not in ("scalar", "vector") and any(map(has_condition, node["args"]))
    return "expr" in node and has_condition(node["expr"])


@rule("P701", "recorded-twice", Severity.ERROR)
def recorded_twice(subject: Subject) -> Iterator[Remark]:
    """A rule that records a series that another rule of the file records, too."""
    record, is_same, is_one_series = subject.context.twice(subject.text) or ("", False, False)
    if is_same or is_one_series and subject.labels.of(subject.tree).only == frozenset():
        yield Remark(subject.whole, f"another rule of {subject.context.records.where} records `{record}` with the same labels")


@rule("P702", "recorded-in-circle", Severity.WARNING)
def recorded_in_circle(subject: Subject) -> Iterator[Remark]:
    """A rule that reads what is recorded from its own metric, without saying which earlier time it means."""
    names = set(subject.context.circle)
    for node in subject.of_type("vectorSelector") if names else ():
        name = subject.metric(node)
        if name in names and not node["offset"]:
            names.remove(name)
            message = f"`{name}` is recorded from `{subject.context.record}` itself, so this reads what an earlier evaluation left"
            yield Remark(subject.span(node), message)


@rule("P703", "not-recorded", Severity.WARNING, needs="alert")
def not_recorded(subject: Subject) -> Iterator[Remark]:
    """An alert on a metric that no rule of the files records, while its name says so."""
    for node in subject.selectors if subject.context.alert else ():
        name = subject.metric(node)
        message = subject.context.records.why_not(name) if name else ""
        if message:
            yield Remark(subject.head(node), message)
