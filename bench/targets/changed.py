"""Queries for the scripts beside this one: those of the repository, and such as these, changed at random."""

from __future__ import annotations

import json
import pathlib
import random
import sys
from importlib.machinery import SourceFileLoader
from typing import Iterator, List, Optional, Sequence

ROOT = pathlib.Path(__file__).resolve().parents[2]
sys.path[:0] = [str(ROOT / name) for name in ("bench/meaning", "bin", "bindings/python", "bindings/schema")]
import promql  # noqa: E402
from promql.token_texts import code_of  # noqa: E402

PATTERNS = SourceFileLoader("random_patterns", str(ROOT / "bench" / "patterns" / "compare.py")).load_module()
ROWS = SourceFileLoader("rows", str(ROOT / "bin" / "rows")).load_module()
# A longer query is not changed, and one with more bytes is left out.
LONGEST_CHANGED, LONGEST = 300, 100_000


def listed_queries(file: Optional[str]) -> Iterator[str]:
    """The texts of the rows, the queries of bench/queries, and those of a file."""
    for path in sorted((ROOT / "rows").glob("*.tsv")):
        for line in path.read_text(encoding="utf-8").split("\n"):
            columns = line.split("\t")
            # (a raw row is a request, and most are none)
            if line and not line.startswith(("#", "raw")):
                yield ROWS.query_of(columns[0].split(" "), ROWS.field_text(columns[1]))
    for name in (ROOT / "bench" / "queries" / "queries.txt", file):
        if name:
            yield from pathlib.Path(name).read_text(encoding="utf-8").splitlines()


PIECES = r"""
    ( ) { } [ ] , : = == != =~ !~ < > <= >= + - * / % ^ @ and or unless atan2 offset by without on ignoring group_left group_right bool
    start end sum topk count_values quantile limitk limit_ratio inf NaN fill fill_left fill_right smoothed anchored 5m 1h30m 300y 300 0 -0
    010 0755e1 0x1F 1e3 1e309 1e-400 5 foo a job "x" 'y' `z` "\xff" "\ufffd" "a{1001}" "(?x)a" rate absent timestamp time holt_winters info
    exp ln start() end() or= step() 1.5 123456789012345678901234567890123456789 @start() [5m] [5m:] {a=~"b"} 9e18
""".split()
BLANKS = (" ", "\n", "\t", "\r", "\f", " #x\n", "\u00a0", "#")
CHARACTERS = [*map(chr, range(128)), *"éÃ\ufffd\u2028\ufeff😀\x85\xa0"]


class Changer:
    """Changes queries at random: token by token, or character by character. Some have a pattern of bench/patterns."""

    def __init__(self, rng: random.Random, queries: Sequence[str]) -> None:
        self._rng = rng
        self._queries = [query for query in queries if 0 < len(query) <= LONGEST_CHANGED]
        found = {token.text for query in rng.sample(self._queries, 2000) for token in code_of(query) if len(token.text) < 40}
        self._pieces = [*PIECES, *sorted(found)]

    def query(self) -> str:
        query, choice = self._rng.choice(self._queries), self._rng.random()
        if choice < 0.05:
            return f"a{{b{self._rng.choice(('=~', '!~'))}{json.dumps(self._pattern(), ensure_ascii=False)}}}"
        return self._by_tokens(query) if choice < 0.6 else self._by_characters(query)

    def _pattern(self) -> str:
        """A plain pattern, or one with something in it that is not plain."""
        text, other = str(PATTERNS.plain(self._rng, 3)), str(self._rng.choice(PATTERNS.OTHER))
        at = self._rng.randint(0, len(text))
        return text[:at] + self._rng.choice(("", other)) + text[at:]

    def _by_tokens(self, query: str) -> str:
        parts, at = [], 0
        for token in promql.tokens(query):
            parts += [query[at : token.start], query[token.start : token.end]]
            at = token.end
        parts.append(query[at:])
        for _ in range(self._rng.choice((1, 1, 1, 2, 3))):
            self._change(parts, self._rng.choice((PIECES, self._pieces)))
        return "".join(parts)

    def _change(self, parts: List[str], pieces: Sequence[str]) -> None:
        at, other = self._rng.randrange(len(parts)), self._rng.randrange(len(parts))
        choice = self._rng.randrange(6)
        if choice == 0:
            parts[at] = ""
        elif choice == 1:
            parts[at] = self._rng.choice(pieces)
        elif choice == 2:
            parts.insert(at, self._rng.choice(pieces))
        elif choice == 3:
            parts.insert(at, parts[other])
        elif choice == 4:
            parts.insert(at, self._rng.choice(BLANKS))
        else:
            parts[at], parts[other] = parts[other], parts[at]

    def _by_characters(self, query: str) -> str:
        characters = list(query)
        for _ in range(self._rng.choice((1, 1, 2))):
            at = self._rng.randrange(len(characters) + 1)
            kept = self._rng.choice((at, at + 1))
            characters[at:kept] = self._rng.choice(([], [self._rng.choice(CHARACTERS)], [self._rng.choice(CHARACTERS)]))
        return "".join(characters)


def queries_of(count: int, seed: int, more: Sequence[str] = (), file: Optional[str] = None) -> Iterator[str]:
    """So many queries, each once: some more, the listed ones, or half as many of them as the count where they are more than that, and
    changed ones."""
    rng = random.Random(seed)
    listed = [query for query in dict.fromkeys([*more, *listed_queries(file)]) if len(query) <= LONGEST]
    changer = Changer(rng, listed)
    shown = listed if 2 * len(listed) <= count else [*more, *rng.sample(listed, max(0, count // 2 - len(more)))]
    seen = set(shown)
    yield from dict.fromkeys(shown)
    while len(seen) < count:
        query = changer.query()
        if query not in seen:
            seen.add(query)
            yield query
