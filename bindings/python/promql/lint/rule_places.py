"""The rules of a file: what the linter knows of the rule that has a query, and which lines it has."""

from __future__ import annotations

import re
from functools import partial
from itertools import chain
from typing import Dict, FrozenSet, Iterator, List, NamedTuple, Optional, Set, Tuple

import promql

from ..checked_queries import Budget, Store, take
from ..files import BoundError
from ..quick_rules import DURATION, MILLISECONDS
from ..rule_checks import mappings_in
from ..rule_documents import Kind
from ..rule_files import RuleFile
from ..scalars import Mappings, Node
from .records import RecordedRule, RecordsReader, SharedRecords
from .subject import RuleContext

_LABEL = re.compile(r"\$labels\.([A-Za-z_]\w*)", re.ASCII)
# What asks whether there is such a label, before it.
_QUESTION = re.compile(r"\b(?:if|with|and|or|not)\b")
# What has the value of the alert's query, what does no more with it than to ask, and a query whose text is there.
_VALUE = re.compile(r"\$value\b|(?<![\w)])\.Value\b")
_NO_TEXT = re.compile(r"\{\{-?\s*(?:(?:if|else|with|range|eq|ne|lt|le|gt|ge|and|or|not)\b|/\*|\$\w+\s*:?=)")
_QUERY = re.compile(r"""\bquery\s+("(?:[^"\\\n]|\\[^\n])*"|`[^`]*`)""")
_LONGEST_DURATION = 100
# Aliases may put a rule into groups of so many intervals.
MOST_INTERVALS = 8
_MOST_LABELS = 50


class RulePlace(NamedTuple):
    """A rule of a file: `text[start:end]` of it, where the query is, and what is known of it."""

    start: int
    end: int
    query_end: int
    context: RuleContext


class _Named(NamedTuple):
    """What templates name: the labels that they show, and those of which they ask."""

    shown: FrozenSet[str] = frozenset()
    asked: FrozenSet[str] = frozenset()
    # The texts that have the value in them, by their names, and the queries.
    values: FrozenSet[str] = frozenset()
    queries: Tuple[str, ...] = ()


# The rules of a file, and where those are that aliases put into groups of too many intervals.
RulePlaces = Tuple[List[RulePlace], List[int]]


def rules_of(file: RuleFile, budget: Budget, shared: Optional[SharedRecords] = None) -> RulePlaces:
    """The rules of a file that have queries. Each is there once for all its aliases in groups of one interval. The budget is that of the
    queries that are read to find the labels of recorded metrics, where those of several files are not known."""
    groups = file.groups(Kind.RULES)
    records = RecordsReader(file.mappings, groups, partial(take, budget=budget), file.source.name, shared)
    return _Reader(file.mappings, groups, records).read()


def recorded_rules(file: RuleFile) -> List[RecordedRule]:
    """The rules of a file and of its texts that record, without the labels of those beyond the bound of tokens."""
    budget, found = Budget(file.checker.bounds.max_lint_tokens), []
    for one in file.files():
        for rule in RecordsReader(one.mappings, one.groups(Kind.RULES), lambda query: None).rules.values():
            try:
                take(rule.query, budget)
            except BoundError:
                rule = rule._replace(labels=None)
            found.append(rule)
    return found


class _Reader:
    def __init__(self, mappings: Mappings, groups: List[Node], records: RecordsReader) -> None:
        self._mappings = mappings
        self._groups = groups
        self._records = records
        # What templates name in labels and annotations, by their node, and what those of a rule show, by both nodes.
        self._named: Dict[int, _Named] = {}
        self._shown: Dict[Tuple[int, int], _Named] = {}
        # Where rules are that have too many intervals.
        self._cut: Dict[int, int] = {}

    def read(self) -> RulePlaces:
        recorded: Dict[str, int] = {}
        parts = list(self._parts())
        for interval, rule in parts:
            name = self._mappings.text(rule, "record") if interval else ""
            if name and interval:
                recorded[name] = min(interval, recorded.get(name, interval))
        return [place for part in parts for place in self._place(*part, recorded)], sorted(self._cut.values())

    def _parts(self) -> Iterator[Tuple[Optional[int], Node]]:
        """Each rule with each interval of its groups."""
        lists: Set[Tuple[int, Optional[int]]] = set()
        intervals: Dict[int, Set[Optional[int]]] = {}
        for group in self._groups:
            interval, items = _interval(self._mappings.text(group, "interval")), self._mappings.value(group, "rules")
            if not items or (id(items), interval) in lists:
                continue
            lists.add((id(items), interval))
            for rule in mappings_in(items):
                found = intervals.setdefault(id(rule), set())
                if interval not in found and len(found) == MOST_INTERVALS:
                    self._cut[id(rule)] = rule.start
                elif interval not in found:
                    found.add(interval)
                    yield interval, rule

    def _place(self, interval: Optional[int], rule: Node, recorded: Dict[str, int]) -> Iterator[RulePlace]:
        query = self._mappings.value(rule, "expr")
        if query and query.is_scalar():
            alert, record = self._mappings.text(rule, "alert"), self._mappings.text(rule, "record")
            named = self._named_by_alert(rule) if alert else _Named()
            records, same = self._records.records, self._records.same.get(id(rule))
            circle = records.circle if record in records.circle else frozenset()
            context = RuleContext(alert, record, interval, named.shown, recorded, records, circle, same, named.values, named.queries)
            yield RulePlace(rule.start, _end(rule), query.end, context)

    def _named_by_alert(self, rule: Node) -> _Named:
        """What the templates of an alert name: the labels that they show, but for those of which they ask first, the labels with the value in
        them, and queries. Of more than any alert shows the first ones are taken."""
        owners = [self._mappings.value(rule, key) for key in ("labels", "annotations")]
        place = id(owners[0]), id(owners[1])
        if place not in self._shown:
            labels, texts = (self._named_in(it) if it and it.kind == "mapping" else _Named() for it in owners)
            shown = sorted((labels.shown | texts.shown) - labels.asked - texts.asked)[:_MOST_LABELS]
            queries = (*labels.queries, *texts.queries)[:_MOST_LABELS]
            self._shown[place] = _Named(frozenset(shown), values=labels.values, queries=queries)
        return self._shown[place]

    def _named_in(self, owner: Node) -> _Named:
        if id(owner) not in self._named:
            found = [(str(key.value), _named_by(str(value.value))) for key, value in self._mappings.entries(owner) if value.is_scalar()]
            shown, asked = (frozenset().union(*(it[part] for _, it in found)) for part in (0, 1))
            texts = tuple(dict.fromkeys(text for _, it in found for text in it.queries))
            self._named[id(owner)] = _Named(shown, asked, frozenset(key for key, it in found if it.values), texts)
        return self._named[id(owner)]


# What templates name, by their texts, of which many are alike; the text itself stands for each that has the value in it.
_NAMED = Store()


def _named_by(template: str) -> _Named:
    """What a template names."""
    if template not in _NAMED:
        actions = list(_actions(template))
        labels = [(_asks(action), _LABEL.findall(action)) for action in actions]
        shown, asked = (frozenset(it for is_asked, some in labels if is_asked is wanted for it in some) for wanted in (False, True))
        has_value = any(_VALUE.search(action) and not _NO_TEXT.match(action) for action in actions)
        queries = tuple(filter(None, map(_text_of, dict.fromkeys(it for action in actions for it in _QUERY.findall(action)))))
        _NAMED.keep(template, _Named(shown, asked, frozenset([template][:has_value]), queries), len(template) + 1_000)
    named: _Named = _NAMED[template]
    return named


def _text_of(literal: str) -> str:
    """The text that a literal of a template has, as the library reads it."""
    try:
        return str(promql.parse(literal)["val"])
    except ValueError:
        return ""


def _interval(text: str) -> Optional[int]:
    """How often a group is evaluated, in milliseconds, by its text."""
    found = DURATION.fullmatch(text) if len(text) <= _LONGEST_DURATION else None
    parts = [int(count or 0) * unit for count, unit in zip(found.groups(), MILLISECONDS)] if found else []
    return sum(parts) or None


def _actions(template: str) -> Iterator[str]:
    """What is between braces in a template."""
    begin = template.find("{{")
    while begin >= 0:
        end = template.find("}}", begin + 2)
        if end < 0:
            return
        yield template[begin : end + 2]
        begin = template.find("{{", end + 2)


def _asks(action: str) -> bool:
    """Whether an action asks whether there is a label."""
    last = action.rfind("$labels.")
    return last >= 0 and bool(_QUESTION.search(action, 0, last))


def _end(rule: Node) -> int:
    """Where the last text of a rule ends. (A mapping of YAML has the comments after it, too, and what an alias stands for is before it.)"""
    start, end, todo, seen = rule.start, rule.start, [rule], set()
    while todo:
        collection = todo.pop()
        if id(collection) in seen:
            continue
        seen.add(id(collection))
        for part in collection.value if collection.kind == "sequence" else chain.from_iterable(collection.value):
            if part.start < start:
                continue
            if part.kind != "scalar":
                todo.append(part)
            elif part.end > end:
                end = part.end
    return end
