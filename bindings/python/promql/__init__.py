"""PromQL, the query language of Prometheus: parse, check, print and lay out queries.

>>> import promql
>>> promql.canonical("sum(rate(foo[5m]))by(job)")
'sum by (job) (rate(foo[5m]))'
>>> promql.parse("1")
{'type': 'numberLiteral', 'val': '1'}

Each function raises QueryError where the query is rejected, MemoryError where an allocation failed, UnicodeEncodeError where the
query has a surrogate, TypeError where it is no str, and SmallStackError where the thread has little stack left. Any thread may call any of
them at any time.
"""

from __future__ import annotations

import json
from functools import cached_property
from importlib import import_module
from operator import index
from typing import TYPE_CHECKING, Any, Dict, Iterable, List, Mapping, NamedTuple, Optional, Sequence, Tuple, Type, Union

from ._answers import Answer, Failure, Mode, Named, Status, Target
from ._calls import calls as _caller

if TYPE_CHECKING:
    from . import tree
else:

    def __getattr__(name: str) -> Any:
        """Imports the module of trees when it is asked for, which takes longer than all else here."""
        if name == "tree":
            return import_module("promql.tree")
        raise AttributeError(f"module 'promql' has no attribute '{name}'")


__all__ = [
    "BareInfoError", "Difference", "Error", "GridFunctionError", "LargeEnforcedError", "LongOutputError", "MatcherError",
    "NumberTooWideError", "Part", "QueryError", "Reach", "ReadOtherwiseError", "RefusedError", "RenameError",
    "SmallStackError", "TimeOverflowError", "Token", "TooLargeError", "TooLargeTreeError", "TreeError", "UnfaithfulError",
    "Window", "canonical", "canonical_many", "check", "collect", "differences", "enforce", "format", "format_query",
    "is_constant", "last_read", "limits", "may_read", "parse", "parts", "pinned", "places", "pretty", "print_tree",
    "reaches", "rename_label", "rename_metric", "set_limits", "set_target", "tokens", "tree", "version", "windows",
]
__version__ = "0.10.0"


def __dir__() -> List[str]:
    return [*__all__, "__version__"]


_MAX_LEVEL = 512
_MAX_SIZE = 2**64 - 1
# The greatest and the least time.
_TIMES = (2**63 - 1, -(2**63))
# The greatest width and indentation of a layout for people.
MAX_LINE = 65_535
_MAX_INDENT = 16
TARGETS = {"prometheus-3": Target.PROMETHEUS_3, "prometheus-2.42": Target.PROMETHEUS_2, "rules": Target.RULES}


class Error(ValueError):
    """Why a function returns nothing for a query. `number` is the error's in all programs, or 0 where it is not from a call of the library
    (docs/reference/programs.md, "Numbers of errors")."""

    number = 0


class NumberTooWideError(Error):
    """The query has no JSON form: a number of milliseconds is below -2^63 or above 2^64 - 1."""


class MatcherError(Error):
    """A text is not one matcher, or is one of the metric's name, which cannot be enforced, or is one that the target reads otherwise
    (`set_target`)."""


class RenameError(Error):
    """The new name is none of a metric, or a name of a label is `__name__`, or both labels are in one list and would become one."""


class BareInfoError(Error):
    """The query calls `info` without a second argument, and no matcher limits the series that this reads."""


class LargeEnforcedError(Error):
    """The matcher, or the query with it or with another name, is too long, or its patterns are too large together (`set_limits`)."""


class LongOutputError(Error):
    """What would be returned is too long (`set_limits`)."""


class TimeOverflowError(Error):
    """64 bits do not hold a time of the query in milliseconds: the message shows the node."""


class GridFunctionError(Error):
    """The query is not pinned: it calls `start`, `end`, `step` or `range`, whose values are those of the whole query."""


class SmallStackError(Error):
    """The thread has less stack left than 1.25 MiB, and a query may need as much: see `threading.stack_size`."""


class UnfaithfulError(Error):
    """The query that was made would not mean the changed query, of which no case is known; or the text of a tree would not mean the tree."""


class TreeError(Error):
    """A value is the form of no tree: the message has the place, as `$.lhs.args[0].range`, and what was expected there."""


class TooLargeTreeError(Error):
    """The JSON text of a tree or its line is too long, or its patterns are too large together (`set_limits`)."""


class _Explanation(NamedTuple):
    """What is said of a query that is rejected. Of an error that is no syntax error nothing is expected or found."""

    message: str
    expected: Tuple[str, ...] = ()
    found: Optional[str] = None


class QueryError(Error):
    """The query is rejected.

    `query[start:end]` is the part that the error is about, empty at the query's end. `line` and `column` are those of `start`,
    from 1; a column is a character. `reason` is the message without what was expected.

    `message`, `expected` and `found` of a syntax error are made by one more call, when the first of them is asked for
    (docs/guide/bindings.md, "Why a query is rejected").
    """

    def __init__(self, reason: str, query: str, start: int, end: int, line: int, column: int) -> None:
        super().__init__(reason, query, start, end, line, column)
        self.reason, self.query = reason, query
        self.start, self.end, self.line, self.column = start, end, line, column

    def __str__(self) -> str:
        return f"{self.line}:{self.column}: {self.message}"

    @property
    def message(self) -> str:
        """What is wrong. At a syntax error it says what was found and what was expected, and what may be meant; of more than 512 levels, and
        of some queries that Prometheus takes, it says what to write."""
        return self._explanation.message

    @property
    def expected(self) -> Tuple[str, ...]:
        """What was expected in the place of what was found, by names: `string`, `"}"`, `end of query`. Nothing where that is not told."""
        return self._explanation.expected

    @property
    def found(self) -> Optional[str]:
        """The token that does not fit, as `identifier "b"`, or `end of query`; None where it is not told what was expected."""
        return self._explanation.found

    @cached_property
    def _explanation(self) -> _Explanation:
        answer = _caller.explain(self.query)
        told = json.loads(answer) if isinstance(answer, str) and answer else {}
        # (the limits may be others now, and the stack smaller)
        if (told.get("line"), told.get("column")) != (self.line, self.column):
            return _Explanation(self.reason)
        return _Explanation(told["error"], tuple(told.get("expected", ())), told.get("found"))

    def snippet(self) -> str:
        """The line of the query where the part begins, and a mark below that part."""
        start, end = (len(self.query[:at].encode()) for at in (self.start, self.end))
        return _text(self.query, _caller.snippet(self.query, start, end))


class TooLargeError(QueryError):
    """The query is too long, or its patterns are too large together (`set_limits`)."""


class ReadOtherwiseError(QueryError):
    """The target reads a part of the query otherwise (`set_target`)."""


class RefusedError(QueryError):
    """The target of a query that is checked rejects a part of it (`set_target`)."""


def set_target(name: str) -> None:
    """Sets what reads each later query that `enforce`, `rename_metric`, `rename_label` and `format` return and `check` checks, in this
    process: `"prometheus-3"`, as before the first call, `"prometheus-2.42"`, or `"rules"`, the rules of this library alone
    (docs/reference/targets.md). A query that it reads otherwise raises ReadOtherwiseError, and one that it rejects makes `check` raise
    RefusedError. Raises ValueError where there is no such target."""
    if name not in TARGETS:
        raise ValueError(f"no target is called {name!r}: {', '.join(TARGETS)}")
    _caller.set_target(TARGETS[name])


_limits = {"max_len": 32_768, "max_patterns": 16_000, "max_output": 4_194_304, "max_tree": 4_194_304}


def set_limits(*, max_len: int = 32_768, max_patterns: int = 16_000, max_output: int = 4_194_304, max_tree: int = 4_194_304) -> None:
    """Sets what each later query has to be within, in this process: at most so many bytes, and patterns of at most this size together
    (docs/reference/programs.md, "Limits of a query"). A query that is not raises TooLargeError before it is parsed. A matcher that is
    enforced, and the query with it, have the same limits: where they are not within them, `enforce` raises LargeEnforcedError.
    `canonical`, `format`, `pinned`, `pretty` and `parse` raise LongOutputError where the text that they make has more than `max_output` bytes.
    `print_tree` raises TooLargeTreeError where the JSON text of the tree has more than `max_tree` bytes, or its patterns are larger than
    those of a query may be, before anything of it is compiled."""
    wanted = {"max_len": max_len, "max_patterns": max_patterns, "max_output": max_output, "max_tree": max_tree}
    numbers = {name: _number(name, limit, _MAX_SIZE) for name, limit in wanted.items()}
    _caller.set_limits(*numbers.values())
    _limits.update(numbers)


def limits() -> Dict[str, int]:
    """The limits that `set_limits` set in this process last, or those that it sets where nothing is said."""
    return dict(_limits)


def parse(query: str, *, places: bool = False) -> Dict[str, Any]:
    """The tree of a query in its JSON form (docs/reference/json.md), as dictionaries and lists.

    With `places` the dictionary of each node and of each matcher has `start` and `end`, too: `query[start:end]` is its part of the text.
    `print_tree` takes no such tree. Raises NumberTooWideError where the query has no JSON form. A tree that is nested more deeply than
    Python's recursion limit allows raises RecursionError; a query is nested at most 512 times.
    """
    tree: Dict[str, Any] = json.loads(_text(query, _caller.placed_json(query) if places else _caller.json(query)))
    if places and not query.isascii():
        _place_characters(tree, query)
    return tree


def _place_characters(tree: object, query: str) -> None:
    """Makes the places of a tree those in the characters of its query, and not in the bytes."""
    before = _characters(query)
    rest = [tree]
    while rest:
        it = rest.pop()
        if isinstance(it, dict):
            it.update((name, before[it[name]]) for name in ("start", "end") if name in it)
            rest.extend(it.values())
        elif isinstance(it, list):
            rest.extend(it)


def _characters(text: str) -> Union[range, Dict[int, int]]:
    """The place in characters of each place in bytes where one begins, and of the end."""
    if text.isascii():
        return range(len(text) + 1)
    found, length = {0: 0}, 0
    for count, character in enumerate(text, 1):
        length += len(character.encode())
        found[length] = count
    return found


def print_tree(tree: Mapping[str, object], *, parentheses: bool = False, width: Optional[int] = None, level: int = 0) -> str:
    """The query that has this tree, which is in the form that `parse` returns: on one line, or laid out where there is a `width`.

    With `parentheses` the tree gets parentheses where it needs them. What is returned was read again, and means the tree
    (docs/reference/json.md). Raises TreeError where the tree is no such form, UnfaithfulError where its line would not mean it,
    because of a type or of parentheses, say, and TooLargeTreeError where its JSON text or its line is not within the limits (`set_limits`).
    """
    form = json.dumps(tree, ensure_ascii=False, separators=(",", ":"))
    mode, sizes = Mode.LINE, (0, 0)
    if width is not None:
        mode, sizes = Mode.PRETTY, (_number("level", level, _MAX_LEVEL), _number("width", width, _MAX_SIZE))
    answer = _caller.print_tree(form, mode, *sizes, int(parentheses))
    if not isinstance(answer, str):
        raise _tree_error(answer)
    return answer


def pretty(query: str, *, width: int = 100, level: int = 0) -> str:
    """The query without comments, laid out over several lines where one would have more than `width` bytes, as `promql pretty` prints it.

    Each line begins with `level` indentations of two spaces, which `width` does not count.
    """
    return _text(query, _caller.format(query, _number("level", level, _MAX_LEVEL), _number("width", width, _MAX_SIZE)))


def format(query: str, *, width: int = 100, indent: int = 2, keep_spelling: bool = False, sort_matchers: bool = False) -> str:
    """The query, laid out for people (docs/reference/formatting.md): comments stay, chains of operators are flat, and a line has at most
    `width` characters, its indentation counted, where it can be broken. An indentation has `indent` spaces. They are at most 65,535 and 16.

    With `keep_spelling` numbers, durations, strings and the order of what is written stay, too, and else with `sort_matchers` the matchers
    of a selector are sorted. What is returned was read again: it has the query's tree and comments. Raises UnfaithfulError where it has not;
    there is no query for which this was seen.
    """
    size, spaces = _number("width", width, MAX_LINE), _number("indent", indent, _MAX_INDENT)
    return _text(query, _caller.format_query(query, size, spaces, 1 if keep_spelling else 2 * bool(sort_matchers)))


# (as the library and the other languages call it)
format_query = format


def canonical(query: str) -> str:
    """The query on one line, the same for each spelling of the query: the key of a cache."""
    return _text(query, _caller.canonical(query))


def canonical_many(queries: Iterable[str]) -> List[Union[str, QueryError, UnicodeEncodeError]]:
    """For each query what `canonical` returns, or the QueryError or UnicodeEncodeError that it raises, in the order of the queries.

    So one that is rejected does not end it. Any other error is raised, and no list is returned then. It takes less time than as many calls.
    """
    if isinstance(queries, str):
        raise TypeError("expected an iterable of str, got a str")
    lines, failures = _caller.canonical_many(queries)
    answers: List[Any] = lines
    for number, query, failure in failures:
        answers[number] = _error_of_one(query, failure)
    return answers


def enforce(query: str, matcher: str) -> str:
    """The query on one line with a matcher in every selector, in each of its or-groups: that of a tenant, say.

    The matcher is written as between the braces of a selector: `namespace="team-a"`. Raises MatcherError where it is none, or is one of
    `__name__`, BareInfoError where the query calls `info` without a second argument, and LargeEnforcedError where the matcher, or the query
    with it, is not within the limits of a query. What is returned means the changed query
    (docs/guide/rewriting.md).
    """
    return _text(query, _caller.enforce(query, matcher))


def rename_metric(query: str, old: str, new: str) -> str:
    """The query on one line with the metric `old` named `new`: before braces, and in equal matchers of `__name__`.

    Raises RenameError where the new name is none of a metric, such as `a.b`, and LargeEnforcedError where it has more than 1,024 bytes or
    the renamed query is not within the limits of a query. What is returned was read again, and means the renamed query
    (docs/guide/rewriting.md, "Renaming").
    """
    return _text(query, _caller.rename(query, Named.METRIC, old, new))


def rename_label(query: str, old: str, new: str) -> str:
    """The query on one line with the label `old` named `new`: in matchers, and in the lists of aggregations and operators.

    Strings stay as they are, those of `label_replace` too. Raises RenameError where one of the names is `__name__`, or where one list has
    both labels; else as `rename_metric` does.
    """
    return _text(query, _caller.rename(query, Named.LABEL, old, new))


def collect(query: str) -> Dict[str, Any]:
    """What a query names: `functions`, `labels` and `metrics`, lists of names in order, and `selectors`, dictionaries of `name`,
    `matchers`, `range`, `offset` and `at`, as they print (docs/guide/bindings.md, "What a query names")."""
    names: Dict[str, Any] = json.loads(_text(query, _caller.collect(query)))
    return names


def places(query: str) -> List[Tuple[int, int]]:
    """The place of each node of the query's tree: `query[start:end]` is its part of the text.

    They come in the order of `tree.Expr.walk`: a node before those below it. A sign before a number belongs to the number, and a postfix such
    as `offset` to what it changes. The place of an expression in parentheses that are its own node is without them.
    """
    found: List[Tuple[int, int]] = [(start, end) for start, end in json.loads(_text(query, _caller.places(query)))]
    if query.isascii():
        return found
    before = _characters(query)
    return [(before[start], before[end]) for start, end in found]


class Difference(NamedTuple):
    """The part `query[start:end]` of a query, which the target reads otherwise, or rejects where `is_rejected`, and why."""

    is_rejected: bool
    start: int
    end: int
    message: str


def differences(query: str) -> List[Difference]:
    """What the target reads otherwise of a query than these rules do, and then what it rejects of it (`set_target`).

    `check` raises ReadOtherwiseError or RefusedError for the first of them.

    >>> promql.differences("exp(Inf)")
    [Difference(is_rejected=True, start=0, end=3, message='Prometheus 3 rejects this: the argument is an instant vector there; \
write vector(..) around the number')]
    """
    found, before = json.loads(_text(query, _caller.differences(query))), _characters(query)
    return [Difference(code == Status.REFUSED, before[start], before[end], message) for code, start, end, message in found]


class Part(NamedTuple):
    """The part `query[start:end]` of a node, and its kind (docs/reference/walks.md, "Parts of nodes"): `name`, `operator`, `selector`,
    `matcher`, `label`, `groupLabel`, `range`, `offset`, `at` or `mode`."""

    kind: str
    start: int
    end: int


def parts(query: str) -> List[List[Part]]:
    """The parts of each node of the query's tree, in the order of `places`. Those of one node come in the order in which they end.

    >>> [part.kind for part in promql.parts("rate(a{b='c'}[5m])")[1]]
    ['name', 'matcher', 'selector', 'range']
    """
    found, before = json.loads(_text(query, _caller.parts(query))), _characters(query)
    return [[Part(kind, before[start], before[end]) for kind, start, end in node] for node in found]


class Token(NamedTuple):
    """The token `text[start:end]` of a text, and its kind: `number`, `duration`, `string`, `name`, `aggregator`, `keyword`, `operator`,
    `punctuation`, `comment` or `error`. Between braces each word is a name, but for the operator `or`."""

    kind: str
    start: int
    end: int


def tokens(text: str) -> List[Token]:
    """The tokens of a text, whether it is accepted or not, and its comments, in their order. White space alone is between them.

    What no token begins with is an error, and the tokens go on after it. It is a string with an unknown escape, or one that is not closed,
    which ends with the text; or letters and digits where no word or number may be; or else one character. Raises TooLargeError where the
    text is longer than a query may be (`set_limits`), and QueryError for nothing else.

    >>> promql.tokens("up 5x")
    [Token(kind='name', start=0, end=2), Token(kind='error', start=3, end=5)]
    """
    return [Token(*it) for it in _tokens(text)]


def _tokens(text: str) -> Sequence[Tuple[str, int, int]]:
    """The kind, the start and the end of each token."""
    found: List[Tuple[str, int, int]] = json.loads(_text(text, _caller.tokens(text)))
    if text.isascii():
        return found
    before = _characters(text)
    return [(kind, before[start], before[end]) for kind, start, end in found]


class Window(NamedTuple):
    """What a selector, as it prints without its range, reads over all times of a query: the samples from the millisecond `first` through
    `last`, or None where it is never evaluated. It is `query[start:end]`, or None where that is no part of the query."""

    selector: str
    first: Optional[int]
    last: Optional[int]
    start: Optional[int] = None
    end: Optional[int] = None


def windows(
    query: str, start: int, end: int, step: int = 0, *, lookback: int = 300_000, default_step: int = 60_000, left_open: bool = True
) -> List[Window]:
    """When each selector of a query reads, in the order of a walk, at the times from `start` to `end` by `step`, all in milliseconds
    (docs/guide/bindings.md, "When a query reads"). Raises TimeOverflowError where 64 bits do not hold a window.

    >>> promql.windows("rate(a[5m] offset 1h)", 7_200_000, 10_800_000, 60_000, left_open=False)
    [Window(selector='a offset 1h', first=3300000, last=7200000, start=5, end=20)]
    """
    times = _times(start, end, step, lookback, default_step, left_open)
    found = [Window(*row) for row in json.loads(_text(query, _caller.windows(query, *times)))]
    if query.isascii():
        return found
    before = _characters(query)
    return [it if it.start is None or it.end is None else it._replace(start=before[it.start], end=before[it.end]) for it in found]


class Reach(NamedTuple):
    """How far a selector, as it prints without its range, reads: from `first` through `last` milliseconds after the time of evaluation,
    whatever that is; below 0 they are before it. Where it is `fixed`, which an `@` says, they are since the epoch."""

    selector: str
    first: int
    last: int
    fixed: bool


def reaches(query: str, start: int = 0, end: int = 0, *, lookback: int = 300_000, left_open: bool = True) -> List[Reach]:
    """How far each selector of a query reads, in the order of a walk. `start` and `end` are those of `@ start()` and `@ end()`, and count for
    nothing else. Raises what `windows` raises."""
    times = _times(start, end, 0, lookback, 0, left_open)
    return [Reach(*row) for row in json.loads(_text(query, _caller.reaches(query, *times)))]


def last_read(
    query: str, time: int, start: int, end: int, *, lookback: int = 300_000, default_step: int = 60_000, left_open: bool = True
) -> Optional[int]:
    """The last millisecond that a query reads at `time`, or None where it reads nothing: its value there is final once all samples up to it
    are known. `start` and `end` are those of `@ start()` and `@ end()`. Raises what `windows` raises."""
    times = _times(start, end, 0, lookback, default_step, left_open)
    last: Optional[int] = json.loads(_text(query, _caller.last_read(query, _number("time", time, *_TIMES), *times)))
    return last


def pinned(query: str, start: int, end: int) -> str:
    """The query on one line with these times, in milliseconds, for `@ start()` and `@ end()`: it reads the same in parts of its times
    (docs/guide/cache.md). Raises GridFunctionError where it calls `start`, `end`, `step` or `range`."""
    return _text(query, _caller.pinned(query, _number("start", start, *_TIMES), _number("end", end, *_TIMES)))


def is_constant(query: str) -> bool:
    """Whether the query is the same at every time; it may be where this is False (docs/reference/when.md, "Constant queries")."""
    return _text(query, _caller.is_constant(query)) == "true"


def may_read(query: str, labels: Mapping[str, str]) -> bool:
    """Whether some selector of the query selects the series with these labels, `__name__` among them. Where none does, the series may come
    or go, and what the query gives stays the same (docs/reference/when.md, "Series that a query may read")."""
    if not all(isinstance(text, str) for label in labels.items() for text in label):
        raise TypeError(f"expected labels that are str, got {labels!r}")
    return _text(query, _caller.may_read(query, json.dumps(dict(labels), ensure_ascii=False))) == "true"


def _times(start: int, end: int, step: int, lookback: int, default_step: int, left_open: bool) -> Tuple[int, ...]:
    lengths = {"step": step, "lookback": lookback, "default_step": default_step}
    sizes = (_number(name, length, _MAX_SIZE) for name, length in lengths.items())
    return (_number("start", start, *_TIMES), _number("end", end, *_TIMES), *sizes, int(left_open))


def check(query: str) -> None:
    """Returns where the query is accepted, and the target reads it as it is read here (`set_target`), and else raises QueryError."""
    _text(query, _caller.check(query))


def version() -> str:
    """The version of the library."""
    return _text("", _caller.version())


def _number(name: str, number: int, most: int, least: int = 0) -> int:
    """The number, which may be of any type that stands for a whole one."""
    number = index(number)
    if not least <= number <= most:
        raise ValueError(f"{name} is not from {least} to {most}: {number}")
    return number


# The errors of a call about a tree.
_TREE_ERRORS: Dict[int, Type[Exception]] = {Status.TOO_LARGE: TooLargeTreeError, Status.NOT_A_TREE: TreeError}


def _text(query: str, answer: Answer) -> str:
    """Returns the text of a call, or raises its error."""
    if isinstance(answer, str):
        return answer
    raise _error(query, answer)


def _tree_error(failure: Failure) -> Exception:
    """The error of a call about a tree."""
    status, message = failure[:2]
    return _numbered(_TREE_ERRORS[status](message), status) if status in _TREE_ERRORS else _error("", failure)


# The errors of a part of a query.
_PLACED_ERRORS: Dict[int, Type[QueryError]] = {
    Status.REJECTED: QueryError, Status.TOO_LARGE: TooLargeError, Status.READ_OTHERWISE: ReadOtherwiseError, Status.REFUSED: RefusedError,
}

# The errors without a place.
_ERRORS: Dict[int, Type[Exception]] = {
    Status.NUMBER_TOO_WIDE: NumberTooWideError, Status.BAD_MATCHER: MatcherError, Status.UNFAITHFUL: UnfaithfulError,
    Status.BARE_INFO: BareInfoError, Status.LARGE_ENFORCED: LargeEnforcedError, Status.LONG_OUTPUT: LongOutputError,
    **dict.fromkeys((Status.NOT_A_NAME, Status.METRIC_LABEL, Status.CLASH), RenameError), Status.TIME_OVERFLOW: TimeOverflowError,
    Status.GRID_FUNCTION: GridFunctionError, Status.READ_OTHERWISE: MatcherError, Status.OUT_OF_MEMORY: MemoryError,
}


def _error(query: str, failure: Failure) -> Exception:
    """The error of a call about this query."""
    status, message, first, last, line, column = failure
    # (of a matcher it has no place)
    if status in _PLACED_ERRORS and line:
        start, end = (len(str.encode(query)[:at].decode()) for at in (first, last))
        return _numbered(_PLACED_ERRORS[status](message, query, start, end, line, column), status)
    if status == Status.SMALL_STACK:
        return _numbered(SmallStackError("the thread has less than 1.25 MiB of stack left"), status)
    return _numbered(_ERRORS.get(status, Error)(message), status)


def _numbered(error: Exception, number: int) -> Exception:
    """The error with its number, where it is one of this package."""
    if isinstance(error, Error):
        error.number = number
    return error


def _error_of_one(query: str, failure: Optional[Failure]) -> Union[QueryError, UnicodeEncodeError]:
    """The error of one query among many, which has a surrogate where there is no failure. Raises what is no error of the query."""
    if failure is None:
        try:
            str.encode(query)
        except UnicodeEncodeError as surrogate:
            return surrogate
        raise ValueError("the query has no surrogate")
    error = _error(query, failure)
    if not isinstance(error, QueryError):
        raise error
    return error
