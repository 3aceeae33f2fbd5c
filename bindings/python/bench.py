"""Nanoseconds a query of `check` and of `canonical`, of `tree.parse`, and of `str` of its tree, for the queries of a file, one a line, those
without patterns and those with patterns apart: bench.py FILE [RUNS], where Python finds the package. bindings/bench.sh runs it beside those
of the other languages. With `many` after RUNS: of `canonical_many` in place of `canonical`, for all queries in one call, and of nothing else.
"""

import sys
import time
from pathlib import Path

import promql
from promql import tree

TIMES = 20


def has_pattern(query):
    return "=~" in query or "!~" in query


def time_of_run(call, queries):
    start = time.perf_counter_ns()
    for _ in range(TIMES):
        for query in queries:
            call(query)
    return time.perf_counter_ns() - start


def measure(call, queries, runs):
    """The least nanoseconds a query of all runs."""
    return min(time_of_run(call, queries) for _ in range(runs)) // (TIMES * len(queries))


def measure_many(queries, runs):
    """The same for all queries in one call."""
    return measure(promql.canonical_many, [queries * TIMES], runs) // (TIMES * len(queries))


def main(path, runs="60", how=""):
    lines = Path(path).read_text(encoding="utf-8").splitlines()
    for kind, with_patterns in ("plain", False), ("patterns", True):
        queries = [line for line in lines if has_pattern(line) == with_patterns]
        if how == "many":
            print("line", kind, measure_many(queries, int(runs)))
            continue
        for name, call in ("check", promql.check), ("line", promql.canonical):
            print(name, kind, measure(call, queries, int(runs)))
        print("tree", kind, measure(tree.parse, queries, int(runs)))
        print("text", kind, measure(str, [tree.parse(query) for query in queries], int(runs)))


main(*sys.argv[1:])
