#!/usr/bin/env python3
"""Finds which queries a Prometheus evaluates otherwise once they are printed: bench/targets/README.md.

usage: bench/targets/meanings.py [--made COUNT] [--changed COUNT] [--seed SEED]
"""

from __future__ import annotations

import argparse
import collections
import contextlib
import itertools
import json
import os
import pathlib
import random
import re
import sys
import tempfile
import urllib.parse
from typing import Any, Callable, Counter, Dict, Iterator, Optional, Tuple

from changed import queries_of
import compare
import promql
from checks import Checks
from classes import CLASSES, TREE_CLASSES, classes_by_tree, classes_of
from examples import ALIKE, OTHER, ZEROS_ALIKE, lines_of
from made import Maker

# Between two samples of the store, and no whole second.
NOW = compare.BEGIN + compare.STEP * (compare.SAMPLES - 20) + 7.321
# A longer query is not evaluated.
LONGEST = 3000
# How often a query is evaluated before two results are said to differ.
TRIES = 6


# ---- a server


def series() -> Iterator[compare.Series]:
    """Series that show what the classes are about: samples off the times of queries, values around zero, labels past ASCII. Few values are
    equal, since of equal ones `topk` takes any."""
    for number, (job, a) in enumerate(itertools.product(("api", "web"), ("b", "c", ""))):
        labels = {"job": job, "a": a} if a else {"job": job}
        yield compare.Series("foo", labels, [number / 8 + n % 7 for n in range(compare.SAMPLES)])
        yield compare.Series("bar_total", labels, [n * (number + 1) % 500 for n in range(compare.SAMPLES)])
    for number, le in enumerate(("0.1", "1", "+Inf")):
        yield compare.Series("baz_bucket", {"le": le, "job": "api"}, [n * (number + 1) for n in range(compare.SAMPLES)])
    yield compare.Series("late", {"a": "b"}, [n if n % 40 < 10 else None for n in range(compare.SAMPLES)])
    for value in ("-Inf", "-1", "-0", "0", "0.5", "1", "2", "+Inf", "NaN"):
        yield compare.Series("values", {"v": value}, [value] * compare.SAMPLES)
    for number, text in enumerate(("é", "Ã©", "ÿ", "\x00", "e", "\\", '"', "\n")):
        yield compare.Series("texts", {"a": text}, [number] * compare.SAMPLES)


class Server:
    """A Prometheus that evaluates queries at one time and over a range, off the times of samples."""

    def __init__(self, folder: pathlib.Path) -> None:
        self._server = compare.Prometheus(folder, list(series()))
        self.end = self._server.end

    def evaluate(self, query: str) -> Tuple[Any, ...]:
        at = {"query": query, "time": NOW}
        ranged = {"query": query, "start": NOW - 1200, "end": NOW, "step": 130}
        return self._ask("query", at, "sort" in query), self._ask("query_range", ranged, False)

    def _ask(self, path: str, words: Dict[str, Any], is_sorted: bool) -> Tuple[str, str]:
        """The type and the text of a result, in an order of its own unless the query may sort it; or that there is none, and why."""
        value = json.loads(self._server.get(f"/api/v1/{path}?" + urllib.parse.urlencode(words))[1])
        if value["status"] != "success":
            # (a message may show the query)
            return "rejected" if "parse error" in value["error"] else "error", value["errorType"]
        kind, found = value["data"]["resultType"], value["data"]["result"]
        if kind in ("vector", "matrix"):
            found = [json.dumps(it, sort_keys=True) for it in found]
            found = found if is_sorted else sorted(found)
        return kind, json.dumps(found)

    def differs(self, written: str, printed: str) -> Optional[Tuple[str, str]]:
        """Two results that differ, where each query has but its own, however often it is evaluated."""
        if self.evaluate(written) == self.evaluate(printed):
            return None
        ones, others = ({rounded(self.evaluate(text)) for _ in range(TRIES)} for text in (written, printed))
        if len(ones) > 1 or len(others) > 1 or ones == others:
            return None
        return ones.pop(), others.pop()


def rounded(found: Tuple[Any, ...]) -> str:
    """A result whose long numbers have 13 digits: the server adds in no fixed order."""
    return re.sub(r"-?[0-9]+\.[0-9]{6,}(?:e[-+]?[0-9]+)?", lambda it: f"{float(it[0]):.13g}", str(found))


# ---- the comparison


def printed_texts(query: str) -> Dict[str, str]:
    """What the library prints for a query, each text once, by what printed it."""
    made = {
        "line": promql.canonical(query),
        "layout at width 1": promql.pretty(query, width=1),
        "layout at width 40": promql.pretty(query, width=40),
        "formatted at width 20": promql.format_query(query, width=20),
        "formatted at width 80": promql.format_query(query, width=80),
    }
    return {text: name for name, text in reversed(made.items())}


def rejections_of(query: str) -> Tuple[bool, bool]:
    """Whether the library rejects a query, and its layout, for a Prometheus."""
    promql.set_target("prometheus-3")
    try:
        return is_rejected(promql.check, query), is_rejected(promql.format_query, query)
    finally:
        promql.set_target("rules")


def is_rejected(call: Callable[[str], object], query: str) -> bool:
    try:
        call(query)
    except promql.ReadOtherwiseError:
        return True
    return False


class Comparison:
    """Compares what queries give as they are written and as they are printed, and counts by class."""

    def __init__(self, server: Server) -> None:
        self._server = server
        self.checks = Checks(40)
        self.counts: Counter[str] = collections.Counter()
        self.of_class: Counter[str] = collections.Counter()
        self.differing: Counter[str] = collections.Counter()

    def look_at(self, query: str, is_exact: bool = False) -> None:
        """Compares what a query gives. An exact one is other once it is printed exactly if it is of a class."""
        written = self._server.evaluate(query)
        self.counts["queries"] += 1
        if written[0][0] == "rejected":
            self.counts["rejected by the server"] += 1
            return
        self.counts["with a result"] += any(it[1] != "[]" for it in written)
        found = classes_of(query)
        self.checks.check(classes_by_tree(query) == TREE_CLASSES & set(found), f"by tokens and tree: {query!r} {found}")
        # (the library finds every query of a class, and some others)
        rejects, rejects_layout = rejections_of(query)
        self.checks.check(rejects or not found, f"let through: {query!r} {found}")
        self.checks.check(rejects or not rejects_layout, f"its layout is rejected alone: {query!r}")
        self.counts["rejected and of a class"] += rejects and bool(found)
        self.counts["rejected and of no class"] += rejects and not found
        self.of_class.update(found)
        is_other = False
        # (a query with several results, as `topk` has of equal values, differs from none)
        for text, name in printed_texts(query).items():
            difference = self._server.differs(query, text)
            is_other = is_other or difference is not None
            lets = not rejects_layout if name.startswith("formatted") else not rejects
            self.checks.check(difference is None or not lets, f"{name}: {query!r}\n    {text!r}\n    {str(difference)[:600]}")
        kept = promql.format_query(query, width=40, keep_spelling=True)
        self.checks.check(self._server.differs(query, kept) is None, f"in its spelling: {query!r}\n    {kept!r}")
        self.checks.check(is_other or not found or not is_exact, f"not other: {query!r} {found}")
        if is_other:
            self.counts["other once printed"] += 1
            self.differing.update(found if len(found) == 1 else [])


def show_examples(server: Server, checks: Checks) -> None:
    """Whether the server gives each example otherwise once it is printed, and whether it is of its class."""
    for name, queries in OTHER.items():
        for query in lines_of(queries):
            checks.check(server.differs(query, promql.canonical(query)) is not None, f"alike: {query!r}")
            checks.check(classes_of(query) == [name], f"{name}: {query!r} is of {classes_of(query)}")
    for query in lines_of(ALIKE + ZEROS_ALIKE):
        checks.check(server.differs(query, promql.canonical(query)) is None, f"other: {query!r}")
    for query in lines_of(ALIKE):
        checks.check(not classes_of(query), f"{query!r} is of {classes_of(query)}")


def made_queries(count: int, make: Callable[[], str]) -> Iterator[str]:
    """So many queries that are made at random, and that the library accepts."""
    return itertools.islice(filter(is_accepted, iter(make, None)), count)


def changed_queries(count: int, seed: int) -> Iterator[str]:
    """So many of the queries of this repository, and changed ones, that the library accepts, and that have a tree in JSON."""
    found = (query for query in queries_of(10 * count, seed) if is_accepted(query))
    return itertools.islice(found, count)


def is_accepted(query: str) -> bool:
    if len(query) > LONGEST:
        return False
    try:
        promql.parse(query)
    except (ValueError, RecursionError):
        return False
    return True


def main() -> int:
    parser = argparse.ArgumentParser(description=__doc__)
    parser.add_argument("--made", type=int, default=1000, help="how many queries are made at random (%(default)s)")
    parser.add_argument("--changed", type=int, default=1000, help="how many of this repository, and changed ones, are tried (%(default)s)")
    parser.add_argument("--seed", type=int, default=1)
    arguments = parser.parse_args()
    promql.set_target("rules")
    maker = Maker(random.Random(arguments.seed))
    with tempfile.TemporaryDirectory() as folder, contextlib.ExitStack() as stack:
        server = Server(pathlib.Path(folder, "store"))
        stack.callback(server.end)
        comparison = Comparison(server)
        show_examples(server, comparison.checks)
        for query in itertools.chain(made_queries(arguments.made, maker.query), changed_queries(arguments.changed, arguments.seed)):
            comparison.look_at(query)
        for query in made_queries(arguments.made // 4, maker.exact):
            comparison.look_at(query, is_exact=True)
    print(", ".join(f"{name} {count}" for name, count in comparison.counts.items()))
    for name in CLASSES:
        print(f"{name}: {comparison.of_class[name]}, of no other class and other once printed {comparison.differing[name]}")
    return comparison.checks.end()


if __name__ == "__main__":
    os.environ.pop("http_proxy", None)
    sys.exit(main())
