"""Rules about labels that are not there, or not for sure: P401 to P407."""

from __future__ import annotations

from collections import Counter
from typing import FrozenSet, Iterator, Tuple

from .findings import NAME, Remark, Severity, Tree, fills, inner, matching_of, requoted
from .flow import Labels, needs_value
from .subject import Subject
from .table import rule


@rule("P401", "lost-label", Severity.WARNING, needs="aggregation")
def lost_label(subject: Subject) -> Iterator[Remark]:
    """A label after `by` that the series of the aggregation do not have."""
    for node in subject.of_type("aggregation"):
        if node["without"] or not node["grouping"]:
            continue
        below = subject.labels.of(node["expr"])
        lost = {label for label in node["grouping"] if subject.is_written(label) and not below.may_have(label)}
        for label, span in zip(node["grouping"], subject.place(node).labels) if lost else ():
            if label in lost:
                yield Remark(span, f"no series has the label `{label}` here: what is below does not keep it")


@rule("P402", "unmatched-label", Severity.WARNING, needs="binaryExpr")
def unmatched_label(subject: Subject) -> Iterator[Remark]:
    """A label after `on` that one side cannot have, or one after `ignoring` that neither side can have."""
    for node, left, right in subject.matched:
        labels, is_on = matching_of(node)["labels"], matching_of(node)["on"]
        messages = {label: _why_unmatched(label, is_on, left, right) for label in labels if subject.is_written(label)}
        for label, span in zip(labels, subject.place(node).labels) if any(messages.values()) else ():
            if messages.get(label):
                yield Remark(span, messages[label])


def _why_unmatched(label: str, is_on: bool, left: Labels, right: Labels) -> str:
    """What is wrong with a label after `on` or `ignoring`, or nothing."""
    lacking = [side for side, it in (("left", left), ("right", right)) if not it.may_have(label)]
    if is_on and lacking:
        sides = f"the {lacking[0]} side has" if len(lacking) == 1 else "the sides have"
        return f"`on` has the label `{label}`, which {sides} not"
    return f"`ignoring` has the label `{label}`, which no side has" if not is_on and len(lacking) == 2 else ""


@rule("P403", "grouped-label", Severity.WARNING, needs="binaryExpr")
def grouped_label(subject: Subject) -> Iterator[Remark]:
    """A label after `group_left` or `group_right` that the one side cannot have."""
    for node, left, right in subject.matched:
        card = matching_of(node)["card"]
        if not isinstance(card, dict):
            continue
        ((name, labels),) = card.items()
        one, word = (right, "group_left") if name == "many-to-one" else (left, "group_right")
        lost = {label for label in labels if subject.is_written(label) and not one.may_have(label)}
        for label, span in zip(labels, subject.place(node).group) if lost else ():
            if label in lost:
                side = "right" if word == "group_left" else "left"
                yield Remark(span, f"`{word}` takes the label `{label}` from the {side} side, which has none")


@rule("P404", "never-matched", Severity.ERROR, needs="binaryExpr")
def never_matched(subject: Subject) -> Iterator[Remark]:
    """Sides of an operator of which one surely has a label that the other cannot have, or of which both have it with other values."""
    for node, left, right in subject.matched:
        why = _why_never(subject, node, left, right)
        if why:
            yield Remark(subject.head(node), f"no series match: {why}")


def _why_never(subject: Subject, node: Tree, left: Labels, right: Labels) -> str:
    """Why no series of both sides match, or nothing."""
    lacking = _lacking(subject, node, (left, left.sure), (right, right.sure))
    if lacking or not left.values or not right.values or node["op"] == "or" or fills(node):
        return lacking
    here, there = dict(sorted(left.values)), dict(sorted(right.values))
    differing = frozenset(label for label in here.keys() & there.keys() if here[label] != there[label])
    for label in sorted(_compared(node, differing)):
        if subject.is_written(here[label]) and subject.is_written(there[label]):
            values = f"{requoted('', here[label])} on the left side, and {requoted('', there[label])} on the right"
            return f"the label `{label}` has the value {values}"
    return ""


def _lacking(subject: Subject, node: Tree, left: Tuple[Labels, FrozenSet[str]], right: Tuple[Labels, FrozenSet[str]]) -> str:
    """That one side has a label, of some that are to be looked at, which the other side cannot have; or nothing."""
    if not left[1] and not right[1] or node["op"] == "or" or fills(node):
        return ""
    for side, (_, has), (other, _) in (("left", left, right), ("right", right, left)):
        lacking = sorted(_compared(node, other.lacked(has)))
        if lacking and all(map(subject.is_written, lacking)):
            return f"those of the {side} side have the label `{lacking[0]}`, and those of the other have not"
    return ""


@rule("P405", "label-by-order", Severity.WARNING, needs="call")
def label_by_order(subject: Subject) -> Iterator[Remark]:
    """`absent` of a selector with two matchers of a label, whose order tells whether the result has this label."""
    for node in subject.calls("absent", "absent_over_time"):
        selector = inner(node["args"][0])
        matchers = selector.get("matchers", ())
        counts = Counter(it["name"] for it in matchers)
        for label in sorted({it["name"] for it in matchers if it["type"] == "=" and it["name"] != NAME}):
            if counts[label] > 1:
                name = node["func"]["name"]
                message = f"whether what `{name}` gives has the label `{label}` goes by the order of its two matchers: keep one"
                yield Remark(subject.span(selector), message)


def _compared(node: Tree, labels: FrozenSet[str]) -> FrozenSet[str]:
    """Those of the labels that have to be equal on both sides."""
    named = frozenset(matching_of(node)["labels"])
    return labels & named if matching_of(node)["on"] else labels - named


@rule("P406", "matcher-without-label", Severity.ERROR)
def matcher_without_label(subject: Subject) -> Iterator[Remark]:
    """A matcher of a label that the rule of this file which records the metric does not keep."""
    for node in subject.selectors:
        name = subject.metric(node)
        recorded = subject.context.records.labels_of(name) if name else None
        lacked = recorded.lacked(frozenset(it.name for it in subject.matchers(node))) if recorded else ()
        for matcher in subject.matchers(node) if lacked and "or_matchers" not in node else ():
            if matcher.name in lacked and matcher.name != NAME and needs_value(matcher.tree):
                message = f"no series match: the rule that records `{name}` keeps no label `{matcher.name}`"
                yield Remark(subject.matcher_span(node, matcher), message)


@rule("P407", "one-sided-label", Severity.ERROR, needs="binaryExpr")
def one_sided_label(subject: Subject) -> Iterator[Remark]:
    """Sides of an operator of which one is aggregated by a label that the other cannot have."""
    for node, left, right in subject.matched:
        # (what `on` has and a side lacks is told by P402)
        if not matching_of(node)["on"] and not _why_never(subject, node, left, right):
            lacking = _lacking(subject, node, (left, left.named), (right, right.named))
            if lacking:
                yield Remark(subject.head(node), f"no series match: {lacking}; `on` or `ignoring` tells which labels are compared")
