#!/usr/bin/env python3
"""lint.py [COUNT [SEED]]: holds what the linter says of labels, of empty results and of fixes against a Prometheus: README.md."""

from __future__ import annotations

import collections
import contextlib
import json
import os
import pathlib
import random
import sys
import tempfile
from typing import Any, Dict, Iterator, List, Tuple

import compare
import promql
from checks import print_counts
from promql.lint import fix, lint
from promql.lint.subject import Subject

# What says that an expression has no value.
EMPTY = ("P107", "P108", "P303", "P308", "P404")
# Queries that select series with a line end in the value of a label.
WITH_LINE_ENDS = tuple(f'{name}{{job="a\\nb",instance="i\\n"}}' for name in compare.NAMES)
PATTERNS = (".*", "api", "^web$", "^i.*", "i1|i2", "i.$", "", ".+", "200", "[0-9]+", "(api|db)", "x.*|api$")


class Maker(compare.Maker):
    """Makes queries with what the linter looks for."""

    def matcher(self) -> str:
        label = self.rng.choice(compare.LABELS)
        if self.rng.random() < 0.5:
            return f'{label}{self.rng.choice(("=~", "!~"))}"{self.rng.choice(PATTERNS)}"'
        return super().matcher()

    def selector(self) -> str:
        matchers = [self.matcher() for _ in range(self.rng.choice((0, 1, 1, 2, 3)))]
        matchers += self.rng.sample(matchers, 1) if matchers and self.rng.random() < 0.2 else []
        return self.name() + self.rng.choice(("{%s}", " { %s, }")) % ", ".join(matchers) if matchers else self.name() + "{}"

    def instant(self, depth: int) -> str:
        choice = self.rng.random()
        if choice < 0.1:
            return f"(({super().instant(depth)}))"
        if choice < 0.2:
            left, right = super().instant(depth - 1), super().instant(depth - 1)
            return f"({left}) {self.rng.choice(('/', 'and', '>', 'or', 'unless'))} {self.rng.choice(('sum', 'max by (job)'))}({right})"
        if choice < 0.25:
            return f"(count({super().instant(depth - 1)}) {self.rng.choice(('==', '<', '<='))} {self.rng.choice('012')})"
        if choice < 0.35:
            return self.compared(super().instant(depth - 1))
        return str(super().instant(depth))

    def compared(self, vector: str) -> str:
        """Two comparisons of a vector with numbers that are near each other."""
        function = self.rng.choice(("", "hour", "day_of_week", "sgn", "abs", "max", "count"))
        first, second = (f"{self.rng.choice(('<', '<=', '==', '!=', '>', '>='))} {self.rng.choice(('-1', '0', '1', '2', '24'))}" for _ in "12")
        values = f"{function}({vector})"
        return f"(({values} {first}) {self.rng.choice(('', f'and {values}'))} {second})"


def parts_of(query: str) -> Iterator[str]:
    """The texts of the expressions in a query, it itself among them."""
    subject = Subject(query, promql.parse(query))
    for node in subject.nodes:
        if node["type"] in ("binaryExpr", "vectorSelector", "aggregation", "call"):
            span = subject.span(node)
            yield query[span.start : span.end]


def is_filter(node: Dict[str, Any]) -> bool:
    return bool(node["type"] == "binaryExpr" and not node["bool"])


def is_said_empty(query: str) -> str:
    """The code of a finding that says that the query has no value, or nothing."""
    subject = Subject(query, promql.parse(query))
    root = subject.tree
    for finding in lint(query, select=EMPTY):
        is_of_root = {
            "P107": root["type"] == "vectorSelector" and "or_matchers" not in root,
            "P108": root["type"] == "vectorSelector" and "or_matchers" not in root,
            "P303": finding.span == subject.span(root),
            "P308": is_filter(root) and finding.span in (subject.span(root), subject.head(root)) and "no number" not in finding.message,
            "P404": root["type"] == "binaryExpr" and root["op"] != "unless" and finding.span == subject.head(root),
        }
        if is_of_root[finding.code]:
            return finding.code
    return ""


def series_of(found: Tuple[Any, Any]) -> Iterator[Dict[str, str]]:
    for kind, text in found:
        if kind in ("vector", "matrix"):
            yield from (json.loads(it)["metric"] for it in json.loads(text))


class Comparison:
    def __init__(self, server: compare.Prometheus) -> None:
        self._server = server
        self.counts: Dict[str, int] = collections.Counter()
        self.differences: List[str] = []

    def look_at(self, query: str) -> None:
        found = self._server.evaluate(query)
        self.counts["queries"] += 1
        if found[0] == ("error", "bad_data"):
            self.counts["rejected by the server"] += 1
            return
        self.counts["with a result"] += not compare.is_empty(found)
        self._labels(query, found)
        self._fix(query, found)
        for part in dict.fromkeys(parts_of(query)):
            code = is_said_empty(part)
            if code:
                self.counts[f"said to be empty by {code}"] += 1
                given = self._server.evaluate(part)
                # (an error of the execution is that of series that match too many)
                # (a point matches no line end there)
                has_line_ends = code == "P107" and all("\n" in "".join(it.values()) for it in series_of(given))
                if not compare.is_empty(given) and all(it[0] != "error" for it in given) and not has_line_ends:
                    self.differences.append(f"not empty, {code}: {part}")

    def _labels(self, query: str, found: Tuple[Any, Any]) -> None:
        subject = Subject(query, promql.parse(query))
        labels = subject.labels.of(subject.tree)
        for series in series_of(found):
            self.counts["labels of series"] += 1
            names = set(series) - {"__name__"}
            has_values = all(series.get(label) == value for label, value in labels.values)
            if not all(map(labels.may_have, names)) or not labels.sure <= names or not has_values:
                self.differences.append(f"labels {sorted(names)}, said {labels}: {query}")
                break

    def _fix(self, query: str, found: Tuple[Any, Any]) -> None:
        fixed = fix(query)
        if fixed == query:
            return
        self.counts["fixed"] += 1
        if self._server.evaluate(fixed) != found and len({str(self._server.evaluate(query)) for _ in range(8)}) == 1:
            self.differences.append(f"fixed otherwise: {query}\n    {fixed}")


def main(count: str = "2000", seed: str = "1") -> int:
    rng = random.Random(int(seed))
    maker = Maker(rng)
    queries = list(compare.accepted(maker.query() for _ in range(int(count))))
    with tempfile.TemporaryDirectory() as folder, contextlib.ExitStack() as stack:
        server = compare.Prometheus(pathlib.Path(folder, "store"), list(compare.series_of(rng, ["up", *WITH_LINE_ENDS])))
        stack.callback(server.end)
        comparison = Comparison(server)
        for query in queries:
            comparison.look_at(query)
    print(", ".join(f"{name} {number}" for name, number in comparison.counts.items()))
    for difference in comparison.differences:
        print(f"FAILED {difference}")
    held = sum(number for name, number in comparison.counts.items() if name.startswith(("said", "fixed", "labels")))
    return print_counts(held - len(comparison.differences), len(comparison.differences))


if __name__ == "__main__":
    os.environ.pop("http_proxy", None)
    sys.exit(main(*sys.argv[1:]))
