"""Rules about matchers and their patterns: P101 to P109."""

from __future__ import annotations

import re
from typing import Dict, Iterator, List, Optional, Tuple

from . import patterns
from .findings import Fix, Remark, Severity, TextEdit, Tree, requoted
from .go_patterns import why_rejected
from .subject import SeenMatcher, Subject
from .table import rule

_COMMA_AFTER = re.compile(r"\s*,\s*")
_OF_PATTERNS = {"=~": "=", "!~": "!="}


def _groups(subject: Subject) -> Iterator[Tuple[Tree, List[SeenMatcher]]]:
    """The groups of matchers of each selector, without those whose value is not as it was written."""
    for node in subject.selectors:
        for group in subject.matcher_groups(node):
            yield node, [it for it in group if subject.is_written(it.value)]


def _with_pattern(subject: Subject) -> Iterator[Tuple[Tree, SeenMatcher]]:
    return ((node, it) for node, it in subject.written_matchers if it.operator in _OF_PATTERNS)


def _shown(matcher: SeenMatcher) -> str:
    return f"{matcher.name}{matcher.operator}{requoted('', matcher.value)}"


def _gives_labels(node: Tree) -> bool:
    """Whether this is a call whose result has labels that the matchers of a selector say."""
    return node["type"] == "call" and node["func"]["name"] in ("absent", "absent_over_time", "info")


def _written_anew(subject: Subject, node: Tree, matcher: SeenMatcher, operator: str, value: str) -> Optional[Fix]:
    """A fix that writes a matcher with another operator and another value."""
    place = subject.matcher_place(node, matcher)
    if not place or subject.is_below(node, _gives_labels):
        return None
    edits: List[TextEdit] = []
    if operator != matcher.operator:
        edits.append(TextEdit(*place.operator, operator))
    if value != matcher.value:
        edits.append(TextEdit(*place.value, requoted(subject.text[place.value.start : place.value.end], value)))
    return Fix(tuple(edits), ((matcher.tree, {"name": matcher.name, "type": operator, "value": value}),))


def _left_out(subject: Subject, node: Tree, matcher: SeenMatcher) -> Optional[Fix]:
    """A fix that leaves out a matcher of braces without `or`, with a comma beside it."""
    place, braces = subject.matcher_place(node, matcher), subject.place(node).braces
    if not place or not braces or "or_matchers" in node or subject.is_below(node, _gives_labels):
        return None
    start, end = place.whole
    before = subject.text[:start].rstrip()
    if comma := _COMMA_AFTER.match(subject.text, end, braces.end):
        end = comma.end()
    elif before.endswith(","):
        start = len(before) - 1
    elif len(node["matchers"]) == 1 and node["name"] is not None:
        start, end = braces
    return Fix((TextEdit(start, end, ""),), ((matcher.tree, None),))


@rule("P101", "pattern-of-go", Severity.ERROR, needs="~")
def pattern_of_go(subject: Subject) -> Iterator[Remark]:
    """Prometheus rejects a pattern, which is read here."""
    for node, matcher in _with_pattern(subject):
        reason = why_rejected(matcher.value)
        if reason:
            yield Remark(subject.matcher_span(node, matcher), f"Prometheus rejects the pattern: {reason}")


@rule("P102", "pattern-read-otherwise", Severity.WARNING, needs="~")
def pattern_read_otherwise(subject: Subject) -> Iterator[Remark]:
    """Prometheus reads a pattern as another one."""
    for node, matcher in _with_pattern(subject):
        why = patterns.difference(matcher.value)
        if why and not why_rejected(matcher.value):
            yield Remark(subject.matcher_span(node, matcher), f"Prometheus reads the pattern otherwise: {why}")


@rule("P103", "pattern-of-one-text", Severity.WARNING, needs="~")
def pattern_of_one_text(subject: Subject) -> Iterator[Remark]:
    """A pattern that matches one text is a text."""
    for node, matcher in _with_pattern(subject):
        text = patterns.literal(patterns.without_anchors(matcher.value))
        if text is None:
            continue
        operator = _OF_PATTERNS[matcher.operator]
        wanted = f"{matcher.name}{operator}{requoted('', text)}"
        fix = _written_anew(subject, node, matcher, operator, text)
        yield Remark(subject.matcher_span(node, matcher), f"the pattern matches one text alone: write `{wanted}`", fix)


@rule("P104", "needless-anchor", Severity.WARNING, needs="~")
def needless_anchor(subject: Subject) -> Iterator[Remark]:
    """`^` and `$` at the ends of a pattern mean nothing."""
    for node, matcher in _with_pattern(subject):
        rest = patterns.without_anchors(matcher.value)
        if rest == matcher.value or patterns.literal(rest) is not None or patterns.matches_everything(rest):
            continue
        fix = _written_anew(subject, node, matcher, matcher.operator, rest)
        message = "a pattern always has to match the whole value: its anchors are needless"
        yield Remark(subject.matcher_span(node, matcher), message, fix)


@rule("P105", "pattern-of-a-part", Severity.INFO, is_default=False, needs="~")
def pattern_of_a_part(subject: Subject) -> Iterator[Remark]:
    """A pattern that begins and ends with `.*`."""
    for node, matcher in _with_pattern(subject):
        pattern = matcher.value
        parts = patterns.branches(pattern) or []
        is_of_part = pattern.startswith((".*", ".+")) and pattern.endswith((".*", ".+")) and len(pattern) > 4
        if is_of_part and (len(parts) == 1 or not parts) and pattern[-3] != "\\":
            message = "the pattern looks for a part of the value: it may find more than is meant, and takes longer than others"
            yield Remark(subject.matcher_span(node, matcher), message)


def _of_everything(subject: Subject, operator: str, told: str) -> Iterator[Remark]:
    """(without the matcher Prometheus before 3.0 gives series with a line end in the value as well, so there is no fix)"""
    for node, matcher in _with_pattern(subject):
        if matcher.operator == operator and patterns.matches_everything(matcher.value):
            yield Remark(subject.matcher_span(node, matcher), f"`{_shown(matcher)}` matches {told}")


@rule("P106", "matches-all", Severity.WARNING, needs="~")
def matches_all(subject: Subject) -> Iterator[Remark]:
    """A matcher that every value matches, also none."""
    return _of_everything(subject, "=~", "every series, also those without the label: leave it out")


@rule("P107", "matches-none", Severity.ERROR, needs="~")
def matches_none(subject: Subject) -> Iterator[Remark]:
    """A matcher that no value matches."""
    return _of_everything(subject, "!~", "no series without a line end in the label")


def _matches(subject: Subject, matcher: SeenMatcher, value: str) -> Optional[bool]:
    """Whether a value matches, where that can be told."""
    if matcher.operator in ("=", "!="):
        return (matcher.value == value) == (matcher.operator == "=")
    found = patterns.matches(matcher.value, value) if subject.compares_patterns else None
    return None if found is None else found == (matcher.operator == "=~")


def _beside_equal(subject: Subject) -> Iterator[Tuple[Tree, SeenMatcher, SeenMatcher]]:
    """The first `=` of a label in a group of matchers, with each other matcher of that label."""
    for node, group in _groups(subject):
        labels: Dict[str, List[SeenMatcher]] = {}
        for matcher in group:
            labels.setdefault(matcher.name, []).append(matcher)
        for matchers in labels.values():
            equal = next((it for it in matchers if it.operator == "="), None)
            if equal:
                yield from ((node, equal, it) for it in matchers if it is not equal)


@rule("P108", "matchers-exclude-each-other", Severity.ERROR, needs="{")
def matchers_exclude_each_other(subject: Subject) -> Iterator[Remark]:
    """Two matchers of a selector that no series matches both."""
    for node, equal, other in _beside_equal(subject):
        if _matches(subject, other, equal.value) is False:
            message = f"no series matches both `{_shown(equal)}` and `{_shown(other)}`"
            yield Remark(subject.matcher_span(node, other), message)


@rule("P109", "needless-matcher", Severity.WARNING, needs="{")
def needless_matcher(subject: Subject) -> Iterator[Remark]:
    """A matcher that every series matches which another one of the selector lets through."""
    for node, equal, other in _beside_equal(subject):
        # (of what matches everything P106 tells)
        if _matches(subject, other, equal.value) and not (other.operator == "=~" and patterns.matches_everything(other.value)):
            message = f"`{_shown(equal)}` is there, so `{_shown(other)}` says nothing more: leave it out"
            yield Remark(subject.matcher_span(node, other), message, _left_out(subject, node, other))
