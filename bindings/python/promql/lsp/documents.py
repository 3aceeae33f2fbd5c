"""The documents that an editor has open, and the query that is being written where one is not read as it is."""

from __future__ import annotations

import re
from bisect import bisect_right
from typing import Any, Iterator, List, NamedTuple, Optional, Sequence, Tuple

import promql

from ..dashboards import may_have_queries
from ..documents import GROUPS
from ..scalars import Scalar, flow_text
from .findings import ERROR, Problem, given_query, lint_problems, page_of
from .layout import RuleLayouts
from .messages import INVALID_PARAMS, ProtocolError
from .outline import Group
from .positions import Lines, Range
from .rules import PlacedQuery, Rule, read_lines
from .settings import Settings

_KEY = re.compile(r"(?:^|[-{,])[ \t]*([\"']?)expr\1[ \t]*:[ \t]*")
_HEADER = re.compile(r"(?:[|>][-+1-9]*)?[ \t]*(?:#.*)?$")
# A text in quotes up to its end, where it has one. (What is longer than this is no query.)
_VALUE = re.compile(r""""(?:\\[^\r\n]|[^"\\\r\n]){0,40000}|'(?:''|[^'\r\n]){0,40000}|[^\r\n]{0,40000}""")
_LINE_END = re.compile(r"[\r\n]|\Z")


def query_at(text: str, offset: int, is_json: bool, is_read: bool) -> Optional[PlacedQuery]:
    """The query around a place, or an empty one that may be written there."""
    begin = max(text.rfind("\n", 0, offset), text.rfind("\r", 0, offset)) + 1
    found = _LINE_END.search(text, begin)
    line = text[begin : found.start() if found else begin]
    value = _value(line, offset - begin)
    if value is None and line.strip() or not (may_have_queries(text) if is_json else GROUPS.search(text)):
        return None
    is_empty = _is_below(text, begin, offset) if value is None else line[value:].lstrip()[:1] in ("", "#")
    if is_empty:
        return PlacedQuery("", range(offset, offset + 1))
    # (of a value that was read it is known whether it is a query)
    return None if value is None or is_read or _HEADER.match(line, value) else _on_line(text, begin + value)


def _value(line: str, before: int) -> Optional[int]:
    """Where the value of an `expr` begins on a line, up to this place."""
    found = [it.end() for it in _KEY.finditer(line, 0, before)]
    return found[-1] if found else None


def _on_line(text: str, start: int) -> PlacedQuery:
    """What is written from there on."""
    value = _VALUE.match(text, start)
    end, quote = value.end() if value else start, text[start : start + 1] if text[start : start + 1] in ("'", '"') else ""
    read = flow_text(Scalar(text, start, end + len(quote), start, quote, False, 0))
    query = read.text if quote else read.text.rstrip()
    return PlacedQuery(query, [*read.offsets, end][: len(query) + 1])


def _is_below(text: str, begin: int, offset: int) -> bool:
    """Whether a place on an empty line is in the block of an `expr` that has no text yet."""
    above = text[:begin].rstrip()
    line = above[max(above.rfind("\n"), above.rfind("\r")) + 1 :]
    value = _value(line, len(line))
    return value is not None and bool(_HEADER.match(line, value)) and offset - begin > len(line) - len(line.lstrip())


# A document is not looked at where it is larger.
MOST_CHARACTERS = 8 * 1024 * 1024
TOO_LARGE = Problem(0, 0, ERROR, "larger than what the language server looks at")
_YAML, _JSON = re.compile(r"\.(?:ya?ml|rules?)$", re.I), re.compile(r"\.json$", re.I)
_BLANK_REST = re.compile(r"[ \t]*")


def _blanks(text: str, at: int) -> int:
    """How many blanks come there."""
    found = _BLANK_REST.match(text, at)
    return len(found[0]) if found else 0


class Place(NamedTuple):
    """A place in a query of a document."""

    query: PlacedQuery
    at: int


class Document:
    """A text with its version."""

    def __init__(self, uri: str, language: str, version: int, text: str) -> None:
        self.uri = uri
        self.version = version
        self.settings = Settings()
        self.is_json = language.startswith("json") or language not in ("promql", "yaml") and bool(_JSON.search(uri))
        # Whether it is a file that has queries, of rules or a dashboard, and no query.
        self.is_rule_file = self.is_json or language != "promql" and (language.startswith("yaml") or bool(_YAML.search(uri)))
        self.rules: List[Rule] = []
        self.groups: List[Group] = []
        self.problems: List[Problem] = []
        self.layouts = RuleLayouts()
        # Whether the rules are those of the text as it is, whether what can be told of the text was told, and whether the problems are
        # those of the text as it is.
        self.is_read = False
        self.is_settled = False
        self.is_told = False
        self.set_text(text)

    @property
    def is_large(self) -> bool:
        """Whether it is larger than what is looked at."""
        return len(self.text) > MOST_CHARACTERS

    def set_text(self, text: str) -> None:
        self._put(text)
        self.is_read = self.is_settled = not self.is_rule_file
        if self.is_large:
            self.rules, self.groups, self.is_read, self.is_settled = [], [], False, True
        elif not self.is_rule_file:
            self.rules = [Rule(0, len(text), False, "", 0, 0, "", [PlacedQuery(text, range(len(text) + 1))])]

    def _put(self, text: str) -> None:
        self.text = text
        self.is_told = False
        self._lines: Optional[Lines] = None

    @property
    def lines(self) -> Lines:
        if self._lines is None:
            self._lines = Lines(self.text)
        return self._lines

    def change(self, change: Any) -> None:
        """Makes a change of the protocol: of a part, or of all."""
        text = change.get("text") if isinstance(change, dict) else None
        if not isinstance(text, str):
            raise ProtocolError(INVALID_PARAMS, "a change without a text")
        if change.get("range") is None:
            self.set_text(text)
            return
        start, end = self.lines.span(change["range"])
        new = self.text[:start] + text + self.text[end:]
        if not self.is_rule_file or len(new) > MOST_CHARACTERS:
            self.set_text(new)
            return
        old = self.text
        self._put(new)
        self.groups = [group.moved(end, len(text) - (end - start)) for group in self.groups]
        self._move_rules(old, start, end, len(text) - (end - start))

    def _move_rules(self, old: str, start: int, end: int, by: int) -> None:
        """Reads the rule again in which a change is, and moves those after it. A change anywhere else may be one of all: then those
        that are whole stay till the file is read."""
        number = bisect_right([rule.start for rule in self.rules], start) - 1
        before, rule = self.rules[: max(number, 0)], self.rules[number] if number >= 0 else None
        after = [other.moved(by) for other in self.rules[number + 1 :] if other.start >= end]
        if rule and rule.is_alone and end <= rule.end + _blanks(old, rule.end):
            found = read_lines(self.text, rule.start, rule.end + _blanks(old, rule.end) + by)
            self.is_read = self.is_read and found is not None
            self.is_settled = self.is_settled and found is not None
            self.rules = before + (found or []) + after
        else:
            self.is_read = self.is_settled = False
            self.rules = before + [it for it in (rule,) if it and it.end <= start] + after

    def settle(self, rules: Optional[List[Rule]], groups: Sequence[Group] = ()) -> None:
        """Takes the rules that were read of the text as it is; where there are none to read, those of before stay."""
        self.is_settled, self.is_read = True, rules is not None
        if rules is not None:
            self.rules, self.groups = rules, list(groups)

    def queries(self) -> Iterator[PlacedQuery]:
        for rule in self.rules:
            yield from rule.queries

    def parts(self) -> List[Tuple[int, int]]:
        """Where groups are, and rules."""
        # (a query that is a document is no rule)
        return [(it.start, it.end) for it in self.groups] + [(it.start, it.end) for it in self.rules if self.is_rule_file]

    def place(self, offset: int) -> Optional[Place]:
        """The query at a place; the blanks after it on its line are of it, too."""
        number = bisect_right([rule.start for rule in self.rules], offset) - 1
        for rule in self.rules[max(number, 0) : number + 1]:
            for query in rule.queries:
                if query.start <= offset <= query.end + (_blanks(self.text, query.end) if offset > query.end else 0):
                    return Place(query, query.inside(offset))
        written = query_at(self.text, offset, self.is_json, self.is_read) if self.is_rule_file else None
        return Place(written, written.inside(offset)) if written else None

    def range_in(self, query: PlacedQuery, start: int, end: int) -> Range:
        """The range of a part of a query."""
        return self.lines.range(*query.span(start, end))


def query_problems(text: str, settings: Settings) -> List[Problem]:
    """What is wrong with a query that is a document, or likely to be. One without a token is no fault while it is written."""
    try:
        if text.strip():
            promql.check(text)
    except promql.QueryError as error:
        return [Problem(error.start, error.end, ERROR, error.message)]
    except UnicodeEncodeError as error:
        return [Problem(error.start, error.end, ERROR, "half of a surrogate pair")]
    except ValueError as error:
        return [Problem(0, len(text), ERROR, str(error))]
    return lint_problems(given_query(text), settings.selection) if settings.lints and text.strip() else []


def diagnostic(document: Document, problem: Problem) -> Any:
    """A problem as the protocol has it."""
    place = document.lines.range(problem.start, problem.end)
    found = {"range": place, "severity": problem.severity, "source": "promql", "message": problem.message}
    if problem.code:
        found["code"] = problem.code
    page = page_of(problem.code)
    return {**found, "codeDescription": {"href": page}} if page else found
