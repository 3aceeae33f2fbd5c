"""Dashboards and alert rules of Grafana, in JSON: which of their strings are queries, in both schemas, and how a file spells them."""

from __future__ import annotations

import json
import re
import sys
from array import array
from itertools import groupby, islice
from operator import itemgetter
from typing import Any, Dict, Iterator, List, Mapping, NamedTuple, Optional, Tuple

from .checked_queries import Budget, Document, QueryChecker
from .files import BLANKS, BoundError, Fault, FileError, Source, counted, nested_too_deeply
from .grafana_variables import MOST_TEXTS, VARIABLE, read_variables
from .queries import Edit, PlacedText, Query, SameQuery

JsonPath = Tuple[Any, ...]

# The keys around an `expr` from the innermost one on; an index of a list is None.
_QUERIES = (
    (None, "targets"), (None, "list", "annotations"), ("target", None, "list", "annotations"),
    # Of an alert rule.
    ("model", None, "data"),
    # Of the second schema: a panel, and an annotation.
    ("spec", "query", "spec", None, "queries"),
    ("spec", "query", "spec", None, "annotations"),
)
# The same for the `query` of a variable.
_VARIABLES = (
    (None, "list", "templating"), ("query", None, "list", "templating"), ("spec", "query", "spec", None, "variables"),
)
# What Grafana's data source of Prometheus reads of a variable: the query is in the first parentheses.
_CALL = re.compile(r"\s*(label_values|label_names|query_result|metrics)\s*\(", re.ASCII)
_LABEL_VALUES = re.compile(r"\s*label_values\((?:(.+),)?[^(),=]*\)\s*", re.ASCII | re.DOTALL)
_LABEL_NAMES = re.compile(r"\s*label_names\((.*)\)\s*", re.ASCII | re.DOTALL)
_RESULT = re.compile(r"\s*query_result\((.+)\)\s*", re.ASCII | re.DOTALL)
_METRICS = re.compile(r"\s*metrics\(.*\)\s*", re.ASCII | re.DOTALL)
# How many objects and lists around a query are asked for its source.
_NEAR = 6
# What is no source of data, so that those of the queries in it are asked for.
_NO_SOURCE = ("datasource", "mixed")


def is_query(path: JsonPath) -> bool:
    """Whether the value of this path is a query, where it is a string."""
    return path[-1:] == ("expr",) and _ends_with(path, _QUERIES)


def is_variable(path: JsonPath) -> bool:
    """Whether it is what a variable asks for, which may be a query."""
    return path[-1:] == ("query",) and _ends_with(path, _VARIABLES)


def _ends_with(path: JsonPath, places: Tuple[Tuple[Optional[str], ...], ...]) -> bool:
    around = tuple(None if isinstance(step, int) else step for step in path[-2::-1][:5])
    return any(around[: len(place)] == place for place in places)


def query_of_variable(text: str) -> Optional[Tuple[int, int]]:
    """The part of what a variable asks for that is a query, or nothing where it has none. What is not closed is the query, which is
    rejected then, since Grafana sends it so."""
    found = _LABEL_VALUES.fullmatch(text) or _LABEL_NAMES.fullmatch(text) or _RESULT.fullmatch(text)
    if found:
        return found.span(1) if found[1] and found[1].strip() else None
    return None if _METRICS.fullmatch(text) else (0, len(text))


def is_of_prometheus(text: str) -> bool:
    """Whether a variable asks as those of Prometheus do."""
    return bool(_CALL.match(text))


def source_of(document: Any, path: JsonPath) -> str:
    """The type of the data source of the query in this place, as the innermost object tells that has one; or nothing."""
    near = path[:-1][-_NEAR:]
    document = value_at(document, path[: len(path) - 1 - len(near)])
    around = []
    for step in near:
        document = value_at(document, (step,))
        around.append((step, document))
    for key, value in reversed(around):
        for kind in _kinds(key, value) if isinstance(value, dict) else ():
            if isinstance(kind, str) and kind not in _NO_SOURCE:
                return kind
    return ""


def owner_of(document: Any, path: JsonPath) -> Tuple[JsonPath, str]:
    """The innermost thing around a query that has a title or a name, such as its panel, and that."""
    found: Tuple[JsonPath, str] = ((), "")
    for length, step in enumerate(path[:-1], 1):
        document = value_at(document, (step,))
        title = (document.get("title") or document.get("name")) if isinstance(document, dict) else None
        if isinstance(title, str):
            found = path[:length], title
    return found


def _kinds(key: Any, value: Dict[str, Any]) -> Tuple[Any, ...]:
    source = value.get("datasource")
    kind = source.get("type") if isinstance(source, dict) else None
    if key != "query" or "spec" not in value:
        return (kind,)
    # (of the second schema, in its two versions)
    return (value.get("group") if value.get("kind") == "DataQuery" else value.get("kind"), kind)


def value_at(document: Any, path: JsonPath) -> Any:
    """What has this path, or nothing where keys that are there twice hide it."""
    try:
        for step in path:
            document = document[step]
    except (LookupError, TypeError):
        return None
    return document


_JSON_TOKEN = re.compile(r'"(?:[^"\\]|\\.)*"|[\[\]{},]|[^\s\[\]{}:,"]+')
# What a value is deeper in is no dashboard.
_MOST_LEVELS = 100
_PIECE = re.compile(r"[^\\]+|\\u[dD][89abAB]..\\u[dD][c-fC-F]..|\\u....|\\.")
_UNKNOWN_SOURCE = "a variable whose data source has no type, and which asks for no `label_values(..)` or the like"
_OTHER_PLACE = "not looked at: an `expr` in a place where Grafana has no queries"
# What a file of Grafana has, if it may have queries.
_WORDS = ('"expr"', '"templating"', '"variables"')


def may_have_queries(text: str) -> bool:
    return any(word in text for word in _WORDS)


class JsonString(NamedTuple):
    """A string of a file, `source[start:end]` with its quotes, that is a query, or has one between these texts."""

    source: str
    start: int
    end: int
    before: str = ""
    after: str = ""

    def room(self, width: int) -> int:
        return sys.maxsize if self.after else width

    def room_of_lines(self, width: int) -> int:
        return self.room(width)

    def edit(self, text: str) -> Edit:
        return Edit(self.start, self.end, json.dumps(self.before + text + self.after, ensure_ascii=self.source.isascii()))

    def read(self) -> PlacedText:
        """What the string says."""
        text = PlacedText()
        for piece in _PIECE.finditer(self.source, self.start + 1, self.end - 1):
            text.put(json.loads(f'"{piece[0]}"'), piece.start())
        return text


class Dashboard(Document):
    """A dashboard. The values of variables are put into the queries, which are then to be checked and no more."""

    def __init__(self, source: Source, variables: Optional[Mapping[str, str]] = None, checker: Optional[QueryChecker] = None) -> None:
        super().__init__(source, checker)
        self._document = _load(source)
        self._paths: List[JsonPath] = []
        self.queries = list(self._read_queries(variables or {}))
        self.is_known = bool(self.queries)

    def summary(self) -> str:
        return counted(len(self.queries), "query", "queries")

    def same(self, text: str, same_query: SameQuery) -> bool:
        source, most = self.source._replace(text=text), self.checker.bounds.max_file_nodes
        _load(source)
        old, new = list(_json_tokens(self.source, most)), list(_json_tokens(source, most))
        return len(old) == len(new) and all(_same(*pair, same_query) for pair in zip(old, new))

    def _read_queries(self, variables: Mapping[str, str]) -> Iterator[Query]:
        for path, start, token in _json_tokens(self.source, self.checker.bounds.max_file_nodes):
            is_variable_text = bool(path) and self._is_query_variable(path)
            if not (is_variable_text or path[-1:] == ("expr",)):
                continue
            value = json.loads(token)
            if not value.strip(BLANKS):
                continue
            if not is_variable_text and not is_query(path):
                self.unread.append(Fault(start, start + len(token), _OTHER_PLACE))
                continue
            part = query_of_variable(value) if is_variable_text else (0, len(value))
            if part:
                string = JsonString(self.source.text, start, start + len(token), value[: part[0]], value[part[1] :])
                self._paths.append(path)
                yield self._query(string, variables, self._why_skipped(path, value))

    def panels(self) -> Iterator[Tuple[str, int, int]]:
        """What has a title or a name around queries, such as a panel: that, and where its first query begins and its last one ends."""
        owned = [(owner_of(self._document, path), query) for path, query in zip(self._paths, self.queries)]
        for (_, title), group in groupby(owned, itemgetter(0)):
            queries = [query for _, query in group]
            yield title, queries[0].offsets[0], queries[-1].offsets[-1]

    def _is_query_variable(self, path: JsonPath) -> bool:
        """Whether this is what a variable asks for, and not the list of its values or the like."""
        if not is_variable(path):
            return False
        item = value_at(self._document, path[: max(at for at, step in enumerate(path) if isinstance(step, int)) + 1])
        return isinstance(item, dict) and (item.get("type") == "query" or item.get("kind") == "QueryVariable")

    def _query(self, string: JsonString, variables: Mapping[str, str], skipped: str) -> Query:
        whole = string.read()
        end = len(whole.text) - len(string.after)
        offsets = whole.offsets[end : end + 1] or array("L", [string.end - 1])
        text = _substituted(whole, len(string.before), end, variables)
        if skipped or not VARIABLE.search(text.text):
            return Query(text.text, text.offsets + offsets, string, skipped, is_unread=skipped == _UNKNOWN_SOURCE)
        if not self.checker.variables.takes(sum(1 for _ in islice(VARIABLE.finditer(text.text), MOST_TEXTS))):
            message = f"the queries of the file have more than {self.checker.variables.most:,} variables of Grafana, up to here"
            raise BoundError.of(self.source, string.start, message)
        read = read_variables(text, self.checker)
        return Query(read.text.text, read.text.offsets + offsets, string, read.unknown, variables=read.variables, is_unread=bool(read.unknown))

    def _why_skipped(self, path: JsonPath, value: str) -> str:
        """Why the query in this place is not of Prometheus, or nothing."""
        kind = source_of(self._document, path)
        if not kind:
            return _UNKNOWN_SOURCE if is_variable(path) and not is_of_prometheus(value) else ""
        return "" if "prometheus" in kind else f"its data source is of the type {kind}"


def _load(source: Source) -> Any:
    try:
        # (a number is only passed over, however many digits it has)
        return json.loads(source.text, parse_int=str, parse_float=str)
    except json.JSONDecodeError as error:
        raise FileError.at(source, Fault(error.pos, error.pos, f"not JSON: {error.msg}")) from error


def _json_tokens(source: Source, most_values: int) -> Iterator[Tuple[JsonPath, int, str]]:
    """Each token of a valid JSON text but colons, with its place, and for a string under the key of a query its path.

    The path has an index for each array that the value is in, and a key for each object; that of all else is empty.
    """
    path: List[Any] = []
    budget = Budget(most_values)
    for found in _JSON_TOKEN.finditer(source.text):
        token = found[0]
        place: JsonPath = ()
        if token in "]}":
            path.pop()
        elif token == ",":
            path[-1] = path[-1] + 1 if isinstance(path[-1], int) else None
        elif path and path[-1] is None:
            path[-1] = json.loads(token)
        else:
            if not budget.takes(1):
                message = f"the file has more than {most_values:,} values of JSON, up to here (--max-file-nodes)"
                raise BoundError.of(source, found.start(), message)
            if token in "[{":
                path.append(0 if token == "[" else None)
                if len(path) > _MOST_LEVELS:
                    raise nested_too_deeply(source.name)
            elif token[0] == '"' and path and path[-1] in ("expr", "query"):
                place = tuple(path)
        yield place, found.start(), token


def _same(old: Tuple[JsonPath, int, str], new: Tuple[JsonPath, int, str], same_query: SameQuery) -> bool:
    """Whether two tokens are equal, or have queries in the same place which `same_query` finds the same."""
    (path, _, token), (new_path, _, new_token) = old, new
    if path != new_path or token == new_token:
        return path == new_path
    if not token[0] == new_token[0] == '"':
        return False
    values = json.loads(token), json.loads(new_token)
    if is_query(path):
        return same_query(*values)
    parts = [query_of_variable(value) for value in values] if is_variable(path) else []
    if None in parts or not parts:
        return False
    around = [(value[: part[0]], value[part[1] :]) for value, part in zip(values, parts) if part]
    return around[0] == around[1] and same_query(*(value[slice(*part)] for value, part in zip(values, parts) if part))


def _substituted(text: PlacedText, at: int, end: int, variables: Mapping[str, str]) -> PlacedText:
    """A part of a text with the values of the variables that have one."""
    if (at, end) == (0, len(text.text)) and not variables:
        return text
    made = PlacedText()
    for found in VARIABLE.finditer(text.text, at, end) if variables else ():
        name = found[1] or found[2] or found[3]
        if name in variables:
            made.copy(text, at, found.start())
            made.put_each(variables[name], [text.offsets[found.start()]] * len(variables[name]))
            at = found.end()
    made.copy(text, at, end)
    return made
