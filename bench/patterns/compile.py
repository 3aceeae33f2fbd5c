#!/usr/bin/env python3
"""Compiles small patterns by the library: bench/patterns/README.md, "What is compiled".

usage: bench/patterns/compile.py [COUNT [SEED]]

Each pattern that the library reads within its default limits is matched, so that `regex` compiles it. Prints each one that it does not
compile. The last line is 'N patterns, R read, F failed'; exits with 1 where one failed.
"""

import random
import re
import sys
from collections.abc import Callable, Iterator
from multiprocessing import Pool
from pathlib import Path

import patterns
from patterns import ATOMS, quoted

ROOT = Path(__file__).resolve().parents[2]
sys.path.insert(0, str(ROOT / "bindings/python"))

import promql  # noqa: E402

TABLES = "/usr/share/cargo/registry/regex-syntax-0.6*/src/unicode_tables"
# What takes the most to compile for its measure, and what is built of it.
DENSE = [
    r"\w", r"\W", r"\D", r"\pL", r"\PL", r"[\w\d]", r"[^\w-]", r"[\W--a]", r"[\w&&\pL]", r"\w\b", r"(\w)", r"\w?", r"\w*", "[^a]", "[^é]", ".",
    "(?i)k", "(?i)ſ", r"(?i:\w)", r"(?i:\PL)", "(?i)[^k]", "()", "a?", "[é-日]", "[^é日本語]", r"[\x{80}-\x{10FFFF}]",
]
BUILT: list[Callable[[str, int], str]] = [
    lambda item, n: item * n,
    lambda item, n: f"(?:{item}){{{n}}}",
    lambda item, n: f"({item}{item}){{{n}}}",
    lambda item, n: f"(?:{item}){{0,{n}}}",
    lambda item, n: f"(?:{item * 8}){{{n},}}",
    lambda item, n: "|".join([item] * n),
    lambda item, n: f"(?:{'|'.join([item] * n)})*",
    lambda item, n: f"((?:{item}){{{n // 7}}}){{7}}",
]
# The most bytes of a query's patterns that are tried.
MOST = 16_000


def is_read(pattern: str) -> bool:
    """Whether a query with the pattern is within the limits, and the pattern is one."""
    try:
        promql.check(f"x{{a=~{quoted(pattern)}}}")
    except promql.QueryError:
        return False
    return True


def is_compiled(pattern: str) -> bool:
    """Whether the pattern is compiled where it matches."""
    try:
        promql.may_read(f"x{{a=~{quoted(pattern)}}}", {"__name__": "x", "a": "z"})
    except MemoryError:
        return False
    return True


def largest(make: Callable[[int], str]) -> str:
    """The pattern of the greatest number, by halving, that is read."""
    least, most = 1, MOST
    while least + 1 < most:
        middle = (least + most) // 2
        least, most = (middle, most) if is_read(make(middle)) else (least, middle)
    return make(least)


def classes() -> Iterator[str]:
    """Each class of Unicode that the Rust crate names."""
    names = set()
    for folder in Path("/").glob(TABLES[1:]):
        for file in folder.glob("*.rs"):
            names.update(re.findall(r'\(\s*"([A-Za-z0-9_.]+)",\s*[A-Z_0-9]+\)', file.read_text()))
    for name in sorted(names):
        yield from (rf"\p{{{name}}}", rf"\P{{{name}}}", rf"(?i:\p{{{name}}})")


def near_the_limit(make: random.Random) -> str:
    """Parts whose measures add up to nearly as much as is read."""
    text = before = ""
    while is_read(text) and len(text) < MOST:
        before = text
        if make.random() < 0.2:
            text = f"({text})" + make.choice(["", "?", "*", "{2}", "{3}", "|"])
        elif make.random() < 0.6:
            text += make.choice(DENSE) * make.randint(1, 200)
        else:
            text += make.choice(DENSE + ATOMS) + make.choice(["", "", "?", f"{{{make.choice([2, 7, 30, 82, 250, 450])}}}"])
        if not text:
            break
    return before


def tried(pattern: str) -> tuple[str, bool, bool]:
    read = is_read(pattern)
    return pattern, read, not read or is_compiled(pattern)


def chosen(seed: int) -> str:
    make = random.Random(seed)
    return near_the_limit(make) if seed % 2 else patterns.pattern(make)


def dense(item: str) -> list[str]:
    return [largest(lambda n, build=build: build(item, n)) for build in BUILT]


def main() -> None:
    wanted = int(sys.argv[1]) if len(sys.argv) > 1 else 100_000
    seed = int(sys.argv[2]) if len(sys.argv) > 2 else 1
    seen = read = failed = 0
    with Pool() as pool:
        packed = (pattern for made in pool.imap_unordered(dense, [*DENSE, *classes()]) for pattern in made)
        random_ones = pool.imap_unordered(chosen, range(seed, seed + wanted), chunksize=50)
        for source in (packed, random_ones):
            for pattern, was_read, compiled in pool.imap_unordered(tried, source, chunksize=20):
                seen, read, failed = seen + 1, read + was_read, failed + (not compiled)
                if not compiled:
                    print(repr(pattern), "is not compiled")
    print(f"{seen} patterns, {read} read, {failed} failed")
    sys.exit(failed > 0)


if __name__ == "__main__":
    main()
