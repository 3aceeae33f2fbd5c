#!/usr/bin/env python3
"""Changes the queries on standard input, one a line: each selector gets a matcher of a label, a metric gets another name, and all is summed
by a label. Prints for each query the metrics that it names, and the changed query, or `not changed`.

usage: change_queries.py LABEL VALUE OLD NEW BY

$ echo 'rate(foo[5m]) / bar' | change_queries.py tenant team-a foo foo_total job
bar foo: sum by (job) (rate(foo_total{tenant="team-a"}[5m]) / bar{tenant="team-a"})
"""

from __future__ import annotations

import sys
from typing import Sequence

import promql
from promql import tree
from promql.tree import Aggregation, Expr, Matcher, RangeSelector, Selector


def change(expr: Expr, matcher: Matcher, old: str, new: str, by: str) -> Expr:
    """The changed tree of a query."""

    def changed(node: Expr) -> Expr:
        if not isinstance(node, (Selector, RangeSelector)):
            return node
        return node.with_matcher(matcher).replace(name=new if node.name == old else node.name)

    return Aggregation("sum", tree.transform(expr, changed), grouping=(by,))


def names_in(expr: Expr) -> Sequence[str]:
    """The names before braces, each once and in order."""
    return sorted({node.name for node in expr.walk() if isinstance(node, (Selector, RangeSelector)) and node.name})


def main() -> int:
    if len(sys.argv) != 6:
        sys.exit(__doc__)
    label, value, old, new, by = sys.argv[1:]
    status = 0
    for line in sys.stdin:
        try:
            expr = tree.parse(line)
            print(f"{' '.join(names_in(expr))}: {change(expr, Matcher(label, '=', value), old, new, by)}")
        except (promql.Error, RecursionError) as error:
            status = 1
            print("not changed")
            print(error, file=sys.stderr)
    return status


if __name__ == "__main__":
    sys.exit(main())
