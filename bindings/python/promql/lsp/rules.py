"""What a rule file has, as an editor is told of it: its rules with the places of their queries, and what is wrong with them."""

from __future__ import annotations

import re
from bisect import bisect_left, bisect_right
from functools import lru_cache
from typing import Iterable, Iterator, List, NamedTuple, Optional, Sequence, Tuple, Union

from ..checked_queries import Budget, FileBounds, QueryChecker, pattern_size
from ..dashboards import Dashboard, may_have_queries
from ..documents import GROUPS, document_of
from ..files import Fault, FileError, Source
from ..grafana_variables import Variables
from ..messages import listed
from ..queries import Query
from ..rule_files import RuleFile
from ..scalars import Node
from ..token_texts import tokens_of
from .context import folds_of
from .findings import ERROR, WARNING, Problem, lint_problems
from .names import Names, names_of, names_with
from .semantic import Role, roles_of
from .settings import Settings

NAME = "document"
# Of a rule, and of the queries of a file, each of which costs beside its tokens and patterns as much as so many.
_MOST_NODES, _MOST_TOKENS, _QUERY = 10_000, 60_000, 10
# A rule file is read to tell more of it than a report has, so a larger one is not looked at.
BOUNDS = FileBounds(max_file_nodes=35_000)
# Lines that are longer are not read by themselves.
_LONGEST_LINES = 16_384
# Of longer queries nothing is kept.
_LONGEST_KEPT = 400
_LINE_BEGINS = re.compile(r"\r\n|\r|\n")


# The names of a query, its roles and folds.
LookedAt = Tuple[Names, Tuple[Role, ...], List[Tuple[int, int]]]


def _look_at(text: str) -> LookedAt:
    return names_of(text), roles_of(text), folds_of(text)


_looked_at = lru_cache(maxsize=2_048)(_look_at)


def looked_at(text: str) -> LookedAt:
    """What is in a query; that of short ones is kept, since few of a file that is read again are new."""
    return _looked_at(text) if len(text) <= _LONGEST_KEPT else _look_at(text)


class PlacedQuery:
    """A query of a document, with the place of each of its characters, and what stands in it for the variables of a dashboard."""

    def __init__(self, text: str, offsets: Sequence[int], variables: Optional[Variables] = None) -> None:
        self.text = text
        self.variables = variables
        self.names, self.roles, self.folds = looked_at(text)
        if variables:
            self.names = names_with(self.names, lambda name: self.shown(name) == name)
        # Whether its characters are beside each other on one line.
        self.is_line = offsets[len(text)] - offsets[0] == len(text) and "\n" not in text and "\r" not in text
        self.start = offsets[0]
        self.end = offsets[len(text)]
        if self.is_line or isinstance(offsets, range) and offsets.step == 1:
            self._runs = [(0, self.start)]
        else:
            self._runs = list(_runs(offsets[: len(text)])) or [(0, self.start)]

    def shown(self, text: str) -> str:
        """A part of the query, as people know it."""
        return self.variables.put_back(text) if self.variables else text

    def moved(self, by: int) -> None:
        self.start += by
        self.end += by
        self._runs = [(at, offset + by) for at, offset in self._runs]

    def offset(self, at: int) -> int:
        """The place in the document of a character of the query, or of its end."""
        if at >= len(self.text):
            return self.end
        begin, offset = self._runs[bisect_right(self._runs, (at, self.end + 1)) - 1]
        return offset + at - begin

    def span(self, start: int, end: int) -> Tuple[int, int]:
        """The part of the document that has this part of the query."""
        return self.offset(start), max(self.offset(end - 1) + 1, self.offset(start)) if end > start else self.offset(end)

    def inside(self, offset: int) -> int:
        """The character of the query that is at a place of the document, or the next one before it."""
        if offset >= self.end:
            return len(self.text)
        number = max(sum(1 for _, begin in self._runs if begin <= offset) - 1, 0)
        at, begin = self._runs[number]
        stop = self._runs[number + 1][0] if number + 1 < len(self._runs) else len(self.text)
        return min(max(at + offset - begin, at), stop)


def _runs(offsets: Sequence[int]) -> Iterator[Tuple[int, int]]:
    """Where the places of characters do not count up."""
    before = -2
    for at, offset in enumerate(offsets):
        if offset != before + 1:
            yield at, offset
        before = offset


class Rule(NamedTuple):
    """A rule, `text[start:end]` from the begin of its first line on, or a query that is in none."""

    start: int
    end: int
    # Whether its lines are its own, so that they are read alone.
    is_alone: bool
    # The name of what it records, with its place.
    record: str
    record_start: int
    record_end: int
    alert: str
    queries: List[PlacedQuery]

    def moved(self, by: int) -> Rule:
        for query in self.queries:
            query.moved(by)
        places = (self.record_start + by, self.record_end + by) if self.record else (0, 0)
        return self._replace(start=self.start + by, end=self.end + by, record_start=places[0], record_end=places[1])


def read_file(text: str, is_json: bool = False) -> Union[Dashboard, RuleFile]:
    return document_of(Source(NAME, text, ""), False, is_json, None, QueryChecker(FileBounds() if is_json else BOUNDS))


# (a text is laid out that was read before)
file_of = lru_cache(maxsize=1)(read_file)


def rules_of(file: Union[Dashboard, RuleFile]) -> List[Rule]:
    text, budget = file.source.text, Budget(_MOST_TOKENS)
    admitted = (query for query in _admitted(file) if budget.takes(_QUERY) and budget.takes(len(tokens_of(query.text)) + pattern_size(query.text)))
    placed = (PlacedQuery(query.text, query.offsets, query.variables) for query in admitted)
    queries = sorted(placed, key=lambda query: query.start)
    if isinstance(file, Dashboard):
        return list(map(_lone, queries))
    found: List[Rule] = []
    starts, used = [query.start for query in queries], 0
    for node in sorted(file.rules(), key=lambda rule: rule.start):
        end, is_whole = end_of(node)
        first = bisect_left(starts, node.start, used)
        found += map(_lone, queries[used:first])
        used = bisect_left(starts, end, first)
        found.append(_rule(file, node, end, is_whole, queries[first:used], text))
    found += map(_lone, queries[used:])
    return sorted([*found, *_recorded_in_texts(file)], key=lambda rule: rule.start) if file.texts else found


def _recorded_in_texts(file: RuleFile) -> Iterator[Rule]:
    """What is recorded in files that are texts of this one, without the queries, which are those of this one as well."""
    for text in file.texts:
        for rule in rules_of(text.document) if isinstance(text.document, RuleFile) else ():
            if rule.record:
                place = text.at(rule.record_start), text.at(rule.record_end)
                yield Rule(*place, False, rule.record, *place, "", [])


def _admitted(file: Union[Dashboard, RuleFile]) -> List[Query]:
    """The queries of which the library is asked what is in them, for which it compiles their patterns."""
    return [query for query in file.queries if not query.skipped and file.checker.admits(query.text)]


def rules_at(file: RuleFile, offsets: Iterable[int]) -> Iterator[Optional[Rule]]:
    """The rule that each of these places is in, without its queries."""
    nodes = sorted(file.rules(), key=lambda rule: rule.start)
    starts = [node.start for node in nodes]
    for offset in offsets:
        number = bisect_right(starts, offset) - 1
        end, is_whole = end_of(nodes[number]) if number >= 0 else (0, False)
        yield _rule(file, nodes[number], end, is_whole, [], file.source.text) if offset < end else None


def _lone(query: PlacedQuery) -> Rule:
    return Rule(query.start, query.end, False, "", 0, 0, "", [query])


def end_of(rule: Node) -> Tuple[int, bool]:
    """Where the last scalar of a rule ends, and whether all of it is there, so that no part of it is an alias."""
    end, is_whole, todo, count = rule.start, not rule.anchor, [rule], 0
    while todo and count < _MOST_NODES:
        node = todo.pop()
        count += 1
        if node.start < rule.start or node.anchor or node.is_merge():
            is_whole = False
        elif node.kind == "scalar":
            # (one without a character has a place that each reader of YAML tells in its own way)
            end = max(end, node.end if node.end > node.start else 0)
        else:
            todo += node.value if node.kind == "sequence" else [part for pair in node.value for part in pair]
    return end, is_whole and not todo


def _rule(file: RuleFile, node: Node, end: int, is_whole: bool, queries: List[PlacedQuery], text: str) -> Rule:
    begin = file.source.lines.begin(node.start)
    is_alone = is_whole and text[begin : node.start].strip(" ") == "-" and not node.style
    record = file.mappings.value(node, "record")
    name, place = "", (0, 0)
    if record and record.is_text() and node.start <= record.start < end:
        quotes = len(record.style) if record.style in ("'", '"') else 0
        place = record.start + quotes, record.end - quotes
        # (a name with an escape, a tag or an anchor has no place)
        name = record.value if text[slice(*place)] == record.value else ""
    end_of_rule = node.start + len(text[node.start : end].rstrip(" \r\n"))
    return Rule(begin, end_of_rule, is_alone, name, *place, file.mappings.name(node, "alert"), queries)


def read_lines(text: str, start: int, end: int) -> Optional[List[Rule]]:
    """The rules of some lines of a file, which are read by themselves; nothing where they are no rules by themselves."""
    before = lines_before(text[start:end])
    if before is None or not _stays_inside(text[start:end]):
        return None
    try:
        found = rules_of(read_file(before + text[start:end]))
    except (FileError, RecursionError):
        return None
    if not found or not all(rule.is_alone for rule in found):
        return None
    return [rule.moved(start - len(before)) for rule in found]


def _stays_inside(lines: str) -> bool:
    """Whether no line but that of a rule is as far out as the first one, so that what comes after these lines is read as before."""
    first, *others = _LINE_BEGINS.split(lines)
    column = len(first) - len(first.lstrip(" "))
    item = " " * column + "- "
    return all(line.startswith((" " * (column + 1), item)) or not line.strip(" ") for line in others)


def lines_before(lines: str) -> Optional[str]:
    """What makes a file of the lines of a rule; nothing where they cannot be read by themselves."""
    # (a list may be as far in as its key, so this one is as far in as any list of rules)
    return f"groups:\n- name: {NAME}\n  rules:\n" if lines.startswith("  ") and len(lines) <= _LONGEST_LINES else None


def problems_of(text: str, settings: Settings = Settings(lints=False), is_json: bool = False) -> Tuple[Optional[List[Rule]], List[Problem]]:
    """The rules of a file, where it can be read, and what is wrong with it, or likely to be. In a file that has none nothing is."""
    if is_json and not may_have_queries(text):
        return [], []
    try:
        file = file_of(text, is_json)
    except RecursionError:
        return None, [Problem(0, 0, ERROR, "nested too deeply")]
    except FileError as error:
        return None, [Problem(*(error.span or (0, 0)), ERROR, error.reason)] if is_json or GROUPS.search(text) else []
    if not file.is_known:
        return rules_of(file), []
    faults = file.checker.faults(file.queries) + file.faults
    warnings: List[Fault] = []
    try:
        others, warnings = file.checks()
        faults += others
    except (FileError, RecursionError) as error:
        faults.append(Fault(0, 0, str(error)))
    found = _problems(listed({*faults}, "errors"), ERROR)
    found += _problems(listed({*warnings}, "warnings"), WARNING)
    found += lint_problems(file, settings.selection) if settings.lints else []
    rules = rules_of(file)
    left = _admitted(file)[sum(len(rule.queries) for rule in rules) :]
    message = f"what is in the queries is not told from here on: those of the file have more than {_MOST_TOKENS:,} tokens"
    found += _problems((query.whole(message) for query in left[:1]), WARNING)
    return rules, sorted(found)


def _problems(faults: Iterable[Fault], severity: int) -> List[Problem]:
    return [Problem(fault.start, fault.end, severity, fault.message) for fault in faults]
