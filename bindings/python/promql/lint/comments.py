"""Comments that silence findings: `# promql: ignore P101, P2`, and `# promql: ignore-file P101` for a whole file; and which of them silence
none."""

from __future__ import annotations

import re
from bisect import bisect_left
from dataclasses import dataclass
from functools import lru_cache
from operator import itemgetter
from typing import FrozenSet, Iterable, Iterator, List, NamedTuple, Set, Tuple

from ..files import Source
from ..token_texts import tokens_of
from .table import is_meant, known_codes

_COMMENT = re.compile(r"#\s*promql:\s*ignore(-file)?(?![\w-])[ \t]*([\w, \t]*)")
# The codes that are silenced.
Ignored = FrozenSet[str]


class Silenced(NamedTuple):
    """A comment, `line[start:end]`: whether it is about the whole file, and the words for codes. Without a word all are meant."""

    start: int
    end: int
    is_of_file: bool
    words: Tuple[str, ...]


def ignored_by(words: Iterable[str]) -> Ignored:
    """What words of comments silence: codes, and what these begin with."""
    return frozenset(code for word in set(words) for code in codes_of(word))


@lru_cache(maxsize=1024)
def codes_of(word: str) -> Tuple[str, ...]:
    return tuple(code for code in known_codes() if is_meant(code, word))


def ignored_in(query: str) -> Ignored:
    """What the comments of a query silence."""
    return ignored_by(word for comment in silenced_in(query) for word in comment.words)


def silenced_in(query: str) -> List[Silenced]:
    """The comments of a query that silence findings, with their places there."""
    if "promql:" not in query:
        return []
    comments = (token for token in tokens_of(query) if token.kind == "comment")
    placed = ((token.start, found) for token in comments for found in silenced_by(token.text))
    return [found._replace(start=begin + found.start, end=begin + found.end) for begin, found in placed]


def silenced_by(line: str) -> List[Silenced]:
    """The comments of a line that silence findings."""
    found = []
    for comment in _COMMENT.finditer(line):
        words, end = [], comment.start(2)
        for word in re.finditer(r"[^,\s]+", comment[2]):
            # (a reason may follow)
            if not re.fullmatch(r"P\d*|all", word[0]):
                break
            words.append(word[0])
            end = comment.start(2) + word.end()
        found.append(Silenced(comment.start(), end, bool(comment[1]), tuple(words) or ("all",)))
    return found


_LINE = re.compile(r"[^\r\n]*(?:\r\n|\r|\n|\Z)")


@dataclass(eq=False)
class Comment:
    """A comment, `text[start:end]` of a file, the words that it has for codes, and whether it silences a finding."""

    start: int
    end: int
    words: Tuple[str, ...]
    is_used: bool = False

    def silences(self, codes: Set[str]) -> bool:
        return any(not codes.isdisjoint(codes_of(word)) for word in self.words)


class Silences:
    """The comments of a YAML file."""

    def __init__(self, source: Source) -> None:
        self._lines = source.lines
        self._of_file: List[Comment] = []
        # The codes of all findings.
        self._found: Set[str] = set()
        # Where the lines begin that comments are about, in their order, and the comments. One that is above a rule is about two lines.
        placed = sorted(self._read(source.text) if "promql:" in source.text else (), key=itemgetter(0))
        self._abouts, self._comments = [about for about, _ in placed], [comment for _, comment in placed]
        self._codes_of_file = ignored_by(word for comment in self._of_file for word in comment.words)

    def _read(self, text: str) -> Iterator[Tuple[int, Comment]]:
        """The comments that are not of the whole file, with where the lines begin that they are about."""
        waiting: List[Comment] = []
        for line in _LINE.finditer(text):
            bare = line[0].strip()
            is_comment = bare.startswith("#")
            comments: List[Comment] = []
            for silenced in silenced_by(line[0]) if "promql:" in line[0] else ():
                comment = Comment(line.start() + silenced.start, line.start() + silenced.end, silenced.words)
                (self._of_file if silenced.is_of_file else comments).append(comment)
            if is_comment:
                # (in a block of YAML this may be a comment of the query, which is about the query)
                waiting += comments
                yield from ((line.start(), comment) for comment in comments)
            elif bare:
                yield from ((line.start(), comment) for comment in waiting + comments)
                waiting = []

    def between(self, start: int, end: int) -> Ignored:
        """What is silenced in the lines of this part of the file."""
        of_lines = ignored_by(word for comment in self._about(start, end) for word in comment.words)
        return of_lines | self._codes_of_file

    def use(self, start: int, end: int, codes: Set[str]) -> None:
        """Keeps in mind that there are findings of these codes in this part of the file, which comments may silence."""
        self._found |= codes
        for comment in self._about(start, end):
            comment.is_used = comment.is_used or comment.silences(codes)

    def unused(self) -> List[Comment]:
        """The comments that silence no finding."""
        found = {id(comment): comment for comment in self._comments if not comment.is_used}
        return [*found.values(), *(comment for comment in self._of_file if not comment.silences(self._found))]

    def _about(self, start: int, end: int) -> List[Comment]:
        first = bisect_left(self._abouts, self._lines.begin(start))
        return self._comments[first : bisect_left(self._abouts, max(end, start + 1))]
