"""Files with queries, and what the library says of these: of each text once in a run, and within a bound of all patterns of a file."""

from __future__ import annotations

import re
import sys
from contextlib import contextmanager
from typing import Any, Callable, Dict, Iterable, Iterator, List, NamedTuple, Optional, Sequence, Set, Tuple

import promql

from .files import BoundError, Fault, Source
from .queries import Edit, Query, SameQuery
from .token_texts import tokens_of

# The most bytes of queries of a file for which that is said.
_MOST_EXPLAINED = 65_536
# The most variables of Grafana that the queries of a file have, and the most characters that are read to try what they may be, but for
# the first trial of each query; and as how many characters a variable counts.
_MOST_VARIABLES = 7_500
_MOST_TRIED, _VARIABLE = 1_000_000, 100
# Characters of what is kept of texts, and how many are counted for a verdict.
_MOST_KEPT, _VERDICT = 8_388_608, 1_000
_SIZE = re.compile(r"patterns are too large: (\d+),", re.ASCII)


class FileBounds(NamedTuple):
    """What is looked at of a file at most (docs/guide/security.md, "What a file may cost"), by the names of the options that say it."""

    max_file_patterns: int = 20_000
    max_file_nodes: int = 50_000
    max_lint_tokens: int = 25_000
    max_exact_yaml: int = 200_000


class Budget:
    """What is left of a bound of a file, which may be read several times."""

    def __init__(self, most: int) -> None:
        self.most = most
        self._left = most

    def takes(self, amount: int) -> bool:
        """Takes so much away, and returns whether it was left. What comes after more than that is not looked at either."""
        self._left -= amount
        return self._left >= 0


NO_BOUND = Budget(2**63)
# What a query costs the linter beside its tokens.
_QUERY = 4


def takes(query: str, budget: Budget) -> bool:
    """Takes the tokens of a query, but for signs other than `(`, and a quarter of its patterns from what may be looked at, if it is left."""
    tokens = (it.kind != "punctuation" or it.text == "(" for it in tokens_of(query))
    return budget.takes(_QUERY) and budget.takes(pattern_size(query) // 4 + sum(tokens))


def take(query: str, budget: Budget) -> None:
    """The same, or raises."""
    if not takes(query, budget):
        raise BoundError("the queries of the file have too many tokens together")


@contextmanager
def limited_to(**limits: int) -> Iterator[None]:
    """Other limits of a query meanwhile."""
    before = promql.limits()
    promql.set_limits(**{**before, **limits})
    try:
        yield
    finally:
        promql.set_limits(**before)


def pattern_size(query: str) -> int:
    """What the patterns of a query measure together, which the library tells without compiling one; 0 where it has none, or is too
    long."""
    if "~" not in query:
        return 0
    with limited_to(max_patterns=0):
        try:
            promql.check(query)
        except ValueError as error:
            found = _SIZE.match(getattr(error, "reason", ""))
            return int(found[1]) if found else 0
    return 0


class Store(Dict[Any, Any]):
    """Answers, by what was asked for, till they are large together: then all are forgotten."""

    _size = 0

    def keep(self, key: Any, answer: Any, size: int) -> Any:
        """Keeps an answer, which counts as so many characters, and returns it."""
        if self._size + size > _MOST_KEPT:
            self.forget()
        self._size += size
        self[key] = answer
        return answer

    def made(self, what: Any, query: str, make: Callable[[str], str]) -> str:
        """What is made of a query, once as long as it is kept."""
        if (what, query) not in self:
            text = make(query)
            self.keep((what, query), text, len(query) + len(text) + _VERDICT)
        return str(self[what, query])

    def forget(self) -> None:
        self.clear()
        self._size = 0


# Why texts are rejected that were checked lately, and what was made of texts. They are forgotten where the library has other limits.
VERDICTS = Store()


def _verdict(query: str) -> Optional[ValueError]:
    """Why a text is rejected, or nothing."""
    if query in VERDICTS:
        found: Optional[ValueError] = VERDICTS[query]
        return found
    try:
        promql.check(query)
        found = None
    except ValueError as error:
        # (the frames would be kept, too)
        found = error.with_traceback(None)
    VERDICTS.keep(query, found, len(query) + _VERDICT)
    return found


class QueryChecker:
    """Asks about the queries of one file within its bounds."""

    def __init__(self, bounds: FileBounds = FileBounds()) -> None:
        self.bounds = bounds
        self.lint_tokens = Budget(bounds.max_lint_tokens)
        self.exact_yaml = Budget(bounds.max_exact_yaml)
        self.variables = Budget(_MOST_VARIABLES)
        # Of YAML, with those of the texts that are files.
        self.nodes_left = bounds.max_file_nodes
        self._most = bounds.max_file_patterns
        self._size = 0
        self._counted: Set[str] = set()
        # What the patterns would measure with the first query that is too much.
        self._over: Optional[int] = None
        self._explained_size = 0
        self._explained_length = 0
        self._tried = 0

    def anew(self) -> QueryChecker:
        """Another one with the same bounds, for the file as it is read again, and with what is left for the linter."""
        checker = QueryChecker(self.bounds)
        checker.exact_yaml, checker.lint_tokens = self.exact_yaml, self.lint_tokens
        return checker

    def admits(self, text: str) -> bool:
        """Whether the patterns of a text, with those of the file that came before, are within the bound."""
        if text in self._counted:
            return True
        size = pattern_size(text)
        # (of patterns that are larger than those of a query may be, the library compiles none)
        if not size or size > promql.limits()["max_patterns"]:
            return True
        if self._over is None and self._size + size > self._most:
            self._over = self._size + size
        if self._over is not None:
            return False
        self._counted.add(text)
        self._size += size
        return True

    def accepts(self, text: str) -> bool:
        """Whether a text is looked at and accepted, by the target, too."""
        return self.admits(text) and _verdict(text) is None

    def tries(self, text: str, variables: int) -> bool:
        """Whether a text is to be read to try what its variables may be, as long as what is tried in the file is not too much."""
        self._tried += len(text) + _VARIABLE * variables
        return self._tried <= _MOST_TRIED

    @staticmethod
    def error(text: str) -> Optional[ValueError]:
        """Why the library rejects a text, or nothing. (What only the target rejects can be looked at and laid out.)"""
        found = _verdict(text)
        return None if isinstance(found, promql.RefusedError) else found

    def admitted(self, queries: Iterable[Query], left: List[Query]) -> Iterator[Query]:
        """Those of the queries that are looked at. Those whose patterns are beyond the bound are added to what is left."""
        for query in queries:
            if not query.skipped and self.admits(query.text):
                yield query
            elif not query.skipped:
                left.append(query)

    def faults(self, queries: Iterable[Query]) -> List[Fault]:
        """What is wrong with the queries of the file, and that some are not looked at."""
        left: List[Query] = []
        verdicts = ((query, _verdict(query.text)) for query in self.admitted(queries, left))
        found = [self.rejected(query, error) for query, error in verdicts if error]
        return found + self.left(left)

    def rejected(self, query: Query, error: ValueError) -> Fault:
        """The fault of a query for which a function of the package raised this."""
        return query.rejected(error, self.explains(error))

    def explains(self, error: ValueError) -> bool:
        """Whether it is to be said what was expected in a query, which is read again for it: as long as that is not too much together."""
        if not isinstance(error, promql.QueryError):
            return True
        self._explained_length += len(error.query)
        self._explained_size += pattern_size(error.query)
        return self._explained_length <= _MOST_EXPLAINED and self._explained_size <= self._most

    def left(self, queries: Sequence[Query]) -> List[Fault]:
        """That these queries are not looked at, since the patterns of the file are too large together: at the first one."""
        if not queries:
            return []
        count = len(queries)
        which = "this query is" if count == 1 else f"this query and {count - 1:,} more with patterns are"
        message = f"the patterns of the file are too large together: {self._over}, at most {self._most}; {which} not looked at"
        return [queries[0].whole(f"{message} (--max-file-patterns)")]


class Document:
    """A file with queries."""

    queries: List[Query]
    # Whether it is surely what it was taken for.
    is_known = True

    def __init__(self, source: Source, checker: Optional[QueryChecker] = None) -> None:
        self.source = source
        self.checker = checker or QueryChecker()
        self.faults: List[Fault] = []
        # What is left out, such as an object without rules between others.
        self.notes: List[Fault] = []
        # What may be a query, in a place that is not known.
        self.unread: List[Fault] = []

    def summary(self) -> str:
        """How much there is in the file."""
        return "1 query"

    def checks(self) -> Tuple[List[Fault], List[Fault]]:
        """The faults beside the queries, and warnings."""
        return [], []

    def same(self, text: str, same_query: SameQuery) -> bool:
        """Whether this text of a file has what this one has, but for queries which are the same by `same_query`."""
        return same_query(self.source.text, text)


class PlacedSpelling(NamedTuple):
    """How a file spells a query that it has as it is, or that is not written: where it begins and ends."""

    start: int
    end: int

    def room(self, width: int) -> int:
        return sys.maxsize

    def room_of_lines(self, width: int) -> int:
        return sys.maxsize

    def edit(self, text: str) -> Edit:
        return Edit(self.start, self.end, text)


class GivenQuery(Document):
    """A text that is one query: an argument, standard input, or a document of an editor."""

    def __init__(self, source: Source, checker: Optional[QueryChecker] = None) -> None:
        super().__init__(source, checker)
        length = len(source.text)
        self.queries = [Query(source.text, range(length + 1), PlacedSpelling(0, length))]


class PlacedFile:
    """A document whose text is a part of another file, which has each of its characters, and its end, in these places."""

    def __init__(self, document: Document, offsets: Sequence[int]) -> None:
        self.document = document
        self._offsets = offsets

    def at(self, offset: int) -> int:
        return self._offsets[offset]

    def queries(self, kept: str) -> Iterator[Query]:
        """The queries, which are kept as they are for this reason."""
        for query in self.document.queries:
            offsets = [self._offsets[at] for at in query.offsets]
            # (a rule has its query by where its last quote ends)
            end = getattr(query.spelling, "end", query.offsets[-1])
            spelling = PlacedSpelling(offsets[0], self._offsets[end])
            yield query._replace(offsets=offsets, spelling=spelling, kept=query.kept or kept)

    def faults(self, faults: Iterable[Fault]) -> List[Fault]:
        return [Fault(self._offsets[it.start], self._offsets[it.end], it.message) for it in faults]
