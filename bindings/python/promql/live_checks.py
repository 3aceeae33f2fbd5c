"""What the selectors of queries select on a server now, and how much each query reads there (docs/guide/live.md)."""

from __future__ import annotations

import argparse
from functools import lru_cache
from typing import FrozenSet, Iterator, List, NamedTuple, Sequence, Tuple

from . import tree
from .checked_queries import Document, take
from .documents import Status
from .files import BoundError, counted
from .jobs import Report, as_bytes
from .lint.file_findings import FileLinter
from .lint.findings import NAME
from .lint.table import LIVE, Selection, help_of, name_of
from .messages import ERROR, INFO, UNREAD, WARNING, Message, listed, of_server, placed
from .prometheus_api import ApiError, PrometheusApi
from .queries import Query
from .rule_files import accepted, recorded_in
from .terminal import visible

NO_METRIC, NO_LABEL, NO_VALUE, NO_SERIES, MANY_SERIES, MANY_SAMPLES, READS = LIVE
# How long a sample counts as that of now, in milliseconds.
_LOOKBACK = 300_000
# What a server has as long as one of its alerts fires, and what asks whether there are no series.
_OF_ALERTS, _ABSENT = ("ALERTS", "ALERTS_FOR_STATE"), ("absent", "absent_over_time")
_LONGEST = 500


class Reading(NamedTuple):
    """A selector of a query as it is asked for; over how many milliseconds it is read, where that is more than one time and known; where
    it is; and the outermost `or` that it is below, of which one side may select nothing."""

    text: str
    selector: tree.Selector
    window: int
    at: Message
    choice: int


class QueryReads(NamedTuple):
    """What a query reads, where it is, which codes are looked for there, and the least severe messages with which the command fails."""

    readings: Sequence[Reading]
    at: Message
    codes: FrozenSet[str]
    fail_on: str


# The queries of a file that are to be asked for, and the metrics that it records.
FileReads = Tuple[Sequence[QueryReads], FrozenSet[str]]


def reads_of(document: Document, arguments: argparse.Namespace) -> Tuple[FileReads, List[Message]]:
    """What a file reads, and what is not looked at there."""
    selection, source = Selection(tuple(sum(arguments.select, ())), (), arguments.steps), document.source
    linter, found, faults = FileLinter(document, selection), [], []
    for query in accepted(document):
        codes = frozenset(filter(selection.has, LIVE)) - linter.silenced(query)
        try:
            take(query.text, document.checker.lint_tokens)
            readings = list(_readings(document, query)) if codes else ()
        except BoundError as error:
            faults.append(query.whole(f"not looked at from here on: {error} (--max-lint-tokens)"))
            break
        except (RecursionError, ValueError) as error:
            faults.append(query.whole(f"not looked at: {'nested too deeply' if isinstance(error, RecursionError) else error}"))
            continue
        if readings:
            found.append(QueryReads(readings, _at(document, query, (0, len(query.text))), codes, arguments.fail_on or ERROR))
    left = [placed(source, fault, ERROR, UNREAD, source.shown(fault)) for fault in listed(faults, "errors")]
    return (found, recorded_in(document)), left


def _at(document: Document, query: Query, place: Tuple[int, int]) -> Message:
    fault = query.fault(*place, "")
    return placed(document.source, fault, WARNING, "", document.source.located(fault))


def _readings(document: Document, query: Query) -> Iterator[Reading]:
    """The selectors of a query that can be asked for, but for those of which `absent` asks. Matchers with variables of Grafana are left
    out, and selectors with one in the name of their metric."""
    todo: List[Tuple[tree.Expr, int, int]] = [(tree.parse(query.text, places=True), 0, 0)]
    while todo:
        node, window, choice = todo.pop()
        place = node.place or (0, 0)
        if isinstance(node, tree.Binary) and node.op == "or":
            choice = choice or place[0] + 1
        if isinstance(node, (tree.RangeSelector, tree.Subquery)):
            window += node.range
        if isinstance(node, (tree.Selector, tree.RangeSelector)):
            names = [node.name or "", *(it.value for it in node.matchers if it.name == NAME)]
            selector = tree.Selector(node.name, tuple(it for it in node.matchers if _is_written(query, it.name, it.value)))
            text = "" if node.or_matchers or not _is_written(query, *names) else _text(selector)
            if text:
                yield Reading(text, selector, 0 if query.variables else window, _at(document, query, place), choice)
        elif not isinstance(node, tree.Call) or node.name not in _ABSENT:
            todo += [(it, window, choice) for it in reversed(node.children())]


def _is_written(query: Query, *texts: str) -> bool:
    return not query.variables or all(query.variables.put_back(text) == text for text in texts)


def _text(selector: tree.Selector) -> str:
    """The text of a selector, or nothing where it may select all series."""
    try:
        return str(selector)
    except tree.NodeError:
        return ""


class LiveChecks:
    """Asks a server about queries."""

    def __init__(self, api: PrometheusApi, recorded: FrozenSet[str], arguments: argparse.Namespace) -> None:
        self._number, self._expected = lru_cache(maxsize=None)(api.number), recorded.union(_OF_ALERTS)
        self._most_series, self._most_samples, self._tells_all = arguments.max_series, arguments.max_samples, arguments.verbose

    def look_at(self, query: QueryReads) -> Iterator[Message]:
        """What is found of a query. Raises ApiError where the server does not tell it."""
        looked = [(self._is_empty(it), it) for it in query.readings]
        filled = {it.choice for is_empty, it in looked if it.choice and not is_empty}
        found = [(it.at, *self._why_empty(it.selector)) for is_empty, it in looked if is_empty and it.choice not in filled]
        for at, code, text in (*found, *((query.at, *it) for it in self._amounts(query))):
            if code in query.codes:
                text, severity = text[:_LONGEST] + "…" * (len(text) > _LONGEST), INFO if code == READS else WARNING
                shown = f"{at.text}{severity} {code}: {visible(text)}"
                yield at._replace(severity=severity, code=code, message=text, text=shown, name=name_of(code), help=help_of(code))

    def _is_empty(self, it: Reading) -> bool:
        """Whether a selector selects nothing now, nor in the time over which it is read."""
        if self._number(f"count({it.text})"):
            return False
        return it.window <= _LOOKBACK or not self._number(f"count(last_over_time({it.text}[{it.window}ms]))")

    def _why_empty(self, selector: tree.Selector) -> Tuple[str, str]:
        """The code and the text of why a selector selects nothing; no code where that is no fault."""
        named = selector.replace(matchers=tuple(it for it in selector.matchers if it.name == NAME and it.op == "="))
        name = named.name or "".join(it.value for it in named.matchers[:1])
        there = self._count(named) if name else 0
        if name in _OF_ALERTS or name and not there:
            return "" if name in self._expected else NO_METRIC, f"there are no series of `{name}`"
        about = f"`{name}` has {there:,} series, but none" if name else "there are no series"
        for matcher in selector.matchers:
            if matcher not in named.matchers and not self._count(named, matcher):
                has_label = matcher.name == NAME or self._count(named, tree.Matcher(matcher.name, "!=", ""))
                return (NO_VALUE, f"{about} with `{matcher}`") if has_label else (NO_LABEL, f"{about} with a label `{matcher.name}`")
        return NO_SERIES, f"{about} with all of these matchers"

    def _count(self, named: tree.Selector, *matchers: tree.Matcher) -> int:
        """How many series of a metric, or of all, have these matchers; 1 where that cannot be asked."""
        text = _text(named.replace(matchers=named.matchers + matchers))
        return self._number(f"count({text})") if text else 1

    def _amounts(self, query: QueryReads) -> Iterator[Tuple[str, str]]:
        """How many series and samples a query reads, where that is too much, or all is told."""
        read = sorted({(it.text, it.window) for it in query.readings})
        if self._tells_all or self._most_series is not None:
            series = sum(self._number(f"count({text})") for text in {text for text, _ in read})
            if self._most_series is not None and series > self._most_series:
                yield MANY_SERIES, f"it reads {series:,} series, more than {self._most_series:,} (--max-series)"
        if self._tells_all or self._most_samples is not None:
            asked = [f"sum(count_over_time({text}[{window}ms]))" if window else f"count({text})" for text, window in read]
            samples = sum(map(self._number, asked))
            if self._most_samples is not None and samples > self._most_samples:
                yield MANY_SAMPLES, f"it reads {samples:,} samples, more than {self._most_samples:,} (--max-samples)"
        if self._tells_all:
            yield READS, f"it reads {series:,} series and {samples:,} samples"


def live_report(api: PrometheusApi, arguments: argparse.Namespace, files: Sequence[FileReads]) -> Tuple[str, Report]:
    """What a server tells of the queries of all files, by its URL."""
    checks = LiveChecks(api, frozenset().union(*(names for _, names in files)), arguments)
    queries, told, errors = [query for found, _ in files for query in found], [], []
    for query in queries:
        try:
            told += [(it, it.is_at_least(query.fail_on)) for it in checks.look_at(query)]
        except ApiError as error:
            errors.append(error)
    if errors:
        # (the last one is that after which nothing is asked)
        told.append((of_server(f"{errors[-1]}; {len(errors):,} of {counted(len(queries), 'query', 'queries')} not looked at there"), True))
    summary = f"{api.url}: {counted(len(queries), 'query', 'queries')}, {counted(len(told), 'message', 'messages')}\n"
    status = Status.last([Status.FINE, *(it.status for it, fails in told if fails)])
    return api.url, Report(status, as_bytes(summary), [it for it, _ in told], 0, [fails for _, fails in told])
