"""The metrics that the rules of a file record: which labels their series have, and which of these rules are in each other's way."""

from __future__ import annotations

import re
from contextlib import suppress
from typing import Callable, Collection, Dict, FrozenSet, Iterable, Iterator, List, NamedTuple, Optional, Sequence, Set, Tuple

import promql

from ..files import BoundError
from ..rule_checks import mappings_in
from ..scalars import Mappings, Node
from ..token_texts import tokens_of
from .flow import LabelFlow, Labels

# What may be the name of a metric, in whatever it is.
_WORD = re.compile(r"[A-Za-z_:][\w:]*", re.ASCII)
# An escape that may stand for a character of a name.
_ESCAPE = re.compile(r"\\[xuU0-7]")
# Labels of a metric are followed where there are no more.
_MOST_LABELS = 200


class RecordedRule(NamedTuple):
    """A rule that records: the metric, the query, and the labels that the rule itself gives; None where its group gives more."""

    name: str
    query: str
    labels: Optional[FrozenSet[Tuple[str, str]]] = frozenset()


class Records:
    """The metrics that a file records. A query is given to `take` before it is read."""

    # Where the rules are, in messages.
    where = "this file"

    def __init__(self, rules: Iterable[RecordedRule] = (), take: Callable[[str], None] = lambda query: None) -> None:
        self._rules: Dict[str, List[RecordedRule]] = {}
        for rule in rules:
            self._rules.setdefault(rule.name, []).append(rule)
        self._hash = hash(tuple(rule for some in self._rules.values() for rule in some))
        self._take = take
        self._stems = {_stem(name): name for name in reversed(list(self._rules))}
        self._reads: Dict[str, Set[str]] = {}
        for name, some in self._rules.items():
            self._reads[name] = {it for rule in some for it in _WORD.findall(rule.query)} & self._rules.keys()
        for name in _in_circles(self._reads):
            # (what looks like a name may be a part of a comment or of a text)
            self._reads[name] = self._named_by(name) & self._rules.keys()
        self.circle = _in_circles(self._reads)
        self._found: Dict[str, Optional[Labels]] = dict.fromkeys(self.circle)
        # What tells the rules of a metric, with those that these read, from other ones.
        self._hashes = dict.fromkeys(self.circle, self._hash)
        # Of the queries that were read.
        self._known: Dict[str, Labels] = {}

    def _named_by(self, name: str) -> Set[str]:
        """The words of the queries of a metric, as far as they may be read."""
        found: Set[str] = set()
        with suppress(BoundError):
            for query in dict.fromkeys(rule.query for rule in self._rules[name]):
                self._take(query)
                found.update(token.text for token in tokens_of(query) if token.kind not in ("comment", "string"))
        return found

    def key_of(self, query: str) -> Optional[int]:
        """What tells these metrics from those of another file, where a query may read one of them."""
        names = set(_WORD.findall(query)) if self._rules else set()
        # (a name without a colon is none that a rule should record)
        if any(":" in name and self.why_not(name) for name in names) or names and _ESCAPE.search(query):
            return self._hash
        read = sorted(names & self._rules.keys())
        for it in (it for name in read for it in self._in_order(name, self._hashes)):
            self._hashes[it] = hash((*self._rules[it], *map(self._hashes.get, sorted(self._reads[it]))))
        return hash(tuple(map(self._hashes.get, read))) if read else None

    def labels_of(self, name: str) -> Optional[Labels]:
        """The labels of the series of a metric, where a rule of the file records it, and they can be told."""
        for it in self._in_order(name, self._found):
            self._found[it] = self._read(self._rules[it])
        return self._found.get(name)

    def _in_order(self, name: str, done: Collection[str]) -> Iterator[str]:
        """A metric that is recorded, after those that its rules read, each after what its own rules read; but for those that are done."""
        todo = [name] if name in self._rules else []
        while todo:
            first = todo[-1]
            below = [it for it in self._reads[first] if it not in done] if first not in done else []
            todo += below
            if not below:
                todo.pop()
                yield from [first] if first not in done else ()

    def _read(self, rules: List[RecordedRule]) -> Optional[Labels]:
        found: Optional[Labels] = None
        for rule in rules:
            if rule.labels is None:
                return None
            given = frozenset(name for name, value in rule.labels if value)
            made = self.labels_in(rule.query).dropped(frozenset(name for name, _ in rule.labels)).added(*given)
            made = made._replace(sure=made.sure | given, values=made.values | {it for it in rule.labels if it[1]})
            found = found.either(made) if found else made
        return found if found and sum(len(it or ()) for it in found) <= _MOST_LABELS else None

    def labels_in(self, query: str) -> Labels:
        """The labels of the series of a query; any, where it is rejected."""
        if query not in self._known:
            self._take(query)
            try:
                self._known[query] = LabelFlow(self._found.get).of(promql.parse(query))
            except (RecursionError, ValueError):
                self._known[query] = Labels()
        return self._known[query]

    def why_not(self, name: str) -> str:
        """That a metric is not recorded which most likely is meant to be, since one is that differs by the operation at the end of its
        name, or, where several files are known, since its name is that of a recorded one; or nothing."""
        if name in self._rules or not self._rules:
            return ""
        other, message = self._stems.get(_stem(name)), f"no rule of {self.where} records `{name}`"
        return f"{message}, and one records `{other}`" if other else message if name.count(":") == 2 and self.where != "this file" else ""


def _stem(name: str) -> str:
    """The level and the metric of a name `level:metric:operations`; of another one nothing is like it."""
    return name.rpartition(":")[0] if name.count(":") == 2 else name


def _in_circles(reads: Dict[str, Set[str]]) -> FrozenSet[str]:
    """The names from which one comes back to them; also those between two such circles."""
    read_by: Dict[str, Set[str]] = {name: set() for name in reads}
    for name, others in reads.items():
        for other in others:
            read_by[other].add(name)
    return _without_ends(reads, read_by) & _without_ends(read_by, reads)


def _without_ends(ahead: Dict[str, Set[str]], back: Dict[str, Set[str]]) -> FrozenSet[str]:
    """The names from which one may go on and on."""
    counts = {name: len(others) for name, others in ahead.items()}
    ends = [name for name, count in counts.items() if not count]
    while ends:
        for name in back[ends.pop()]:
            counts[name] -= 1
            if not counts[name]:
                ends.append(name)
    return frozenset(name for name, count in counts.items() if count)


NO_RECORDS = Records()
# A metric and the labels that its rule gives.
SeriesKey = Tuple[str, Optional[FrozenSet[Tuple[str, str]]]]


class SharedRecords:
    """What the rules of several files record, in their order."""

    def __init__(self, files: Iterable[Tuple[str, Sequence[RecordedRule]]]) -> None:
        found = [(name, rule) for name, rules in files for rule in rules]
        self.records = Records(rule for _, rule in found)
        self.records.where = "these files"
        # The file and the query of the first rule that records a series.
        self.first: Dict[SeriesKey, Tuple[str, str]] = {(it.name, it.labels): (name, it.query) for name, it in reversed(found)}


class RecordsReader:
    """Reads the rules of the groups of a file that record."""

    def __init__(
        self, mappings: Mappings, groups: Iterable[Node], take: Callable[[str], None], file: str = "", shared: Optional[SharedRecords] = None
    ) -> None:
        found = [(mappings.value(group, "rules"), mappings.value(group, "labels")) for group in groups]
        with_labels = {id(items) for items, labels in found if labels}
        lists = {id(items): items for items, _ in found}
        self.rules: Dict[int, RecordedRule] = {}
        for items in lists.values():
            for rule in mappings_in(items):
                name, query, labels = (mappings.value(rule, key) for key in ("record", "expr", "labels"))
                if name and query and name.is_scalar() and query.is_scalar():
                    given = None if id(items) in with_labels else mappings.labels(labels)
                    self.rules[id(rule)] = RecordedRule(str(name.value), str(query.value), given)
        self.records = shared.records if shared else Records(self.rules.values(), take)
        # The queries of rules before others, by these, that record the same metric with the same labels.
        self.same: Dict[int, str] = {}
        first: Dict[SeriesKey, str] = {}
        for node, it in self.rules.items():
            key = it.name, it.labels
            where, text = shared.first.get(key, (file, "")) if shared else (file, "")
            same = text if where != file else first.get(key)
            if same is not None and it.labels is not None:
                self.same[node] = same
            first.setdefault(key, it.query)
