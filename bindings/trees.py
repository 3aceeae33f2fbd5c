#!/usr/bin/env python3
"""Holds the trees of the package promql against the library: docs/guide/trees.md tells of them.

usage: bindings/trees.py rows                  each query that a row accepts, and each of bench/queries: its JSON form, as a tree, gives that
                                               form again, and the tree prints as the canonical line
       bindings/trees.py changed COUNT SEED    so many of these trees are changed at random: a matcher is added, the sides of an operator
                                               are swapped, or an expression is replaced by one of another tree. Each prints a text that
                                               reads back as the tree, or raises an error that names the expression at fault
       bindings/trees.py write FILE            writes these queries, as bindings/rows.py writes calls: for the trees of Go and Rust

Where the library has no promql_print_tree nothing is printed, which a line says. The last line is 'N passed, M failed'.
"""

import json
import random
import sys
from collections import Counter
from importlib.machinery import SourceFileLoader
from importlib.util import module_from_spec, spec_from_loader
from pathlib import Path

import rows
from checks import Checks

QUERIES = rows.ROOT / "bench" / "queries" / "queries.txt"
# Why a tree is not printed, or its line is not the one of its query.
DEEP = "a tree is deeper than the library reads"
CUT = "a length of time is below a millisecond"
# How deep arrays and objects are that the library reads.
MOST_DEPTH = 127

sys.setrecursionlimit(100_000)  # JSON of high trees


def queries_of_rows():
    """The queries of all rows that print something, those of great heights among them."""
    sys.dont_write_bytecode = True
    loader = SourceFileLoader("row_files", str(rows.ROOT / "bin" / "rows"))
    module = module_from_spec(spec_from_loader("row_files", loader))
    loader.exec_module(module)
    found = module.read_rows(sorted((rows.ROOT / "rows").glob("*.tsv")))
    return [module.query_of(row.mode, row.text) for row in found if row.code == 0]


def accepted_queries():
    """The queries that rows accept, those that the stored run asks again, and those of bench/queries, each once."""
    asked, replies = ((rows.RUN / name).read_bytes().split(b"\n")[:-1] for name in ("stdin", "stdout"))
    found = queries_of_rows()
    for line, reply in zip(asked, replies):
        if b"ok" in reply and "ok" in json.loads(reply):
            request = json.loads(line)
            found.append(request["query"] if isinstance(request, dict) else request)
    return list(dict.fromkeys([*found, *QUERIES.read_text(encoding="utf-8").splitlines()]))


def write_queries(path):
    rows.write_calls([rows.Call("", rows.PRINT, "line", 0, 0, query.encode(), b"") for query in accepted_queries()], path)


def read_trees():
    """The queries that have a JSON form, with their forms and trees."""
    import promql
    from promql import tree

    for query in accepted_queries():
        try:
            form = promql.parse(query)
        except promql.NumberTooWideError:
            continue
        yield query, form, tree.from_json(form)


def depth(form):
    """How deep the arrays and objects of a form are."""
    if isinstance(form, dict):
        return 1 + max(map(depth, form.values()))
    return 1 + max(map(depth, form), default=0) if isinstance(form, list) else 0


def can_print():
    """Whether the library prints trees; says that nothing is printed where it does not."""
    from promql._calls import calls

    try:
        calls.print_tree('{"type":"numberLiteral","val":"1"}', 0, 0, 0, True)
    except AttributeError:
        print("not tried: the texts of trees in Python: the library has no promql_print_tree")
        return False
    return True


class Report(Checks):
    def __init__(self):
        super().__init__(most=20)
        self.reasons = Counter()


def why_other_line(query, form, line):
    """Why a tree prints as another line than its query, or None where there is no reason: a length of time was cut off."""
    import promql

    is_cut = promql.parse(line) == form and promql.canonical(query) != line
    return CUT if is_cut else None


def check_rows():
    import promql
    from promql import tree

    report = Report()
    prints = can_print()
    for query, form, expr in read_trees():
        report.check(expr.to_json() == form and tree.from_json(expr.to_json()) == expr, f"another form: {query}")
        report.check(eval(repr(expr), vars(tree)) == expr if depth(form) < 60 else True, f"another repr: {query}")
        report.check(depth(form) >= 60 or are_places(query, expr), f"other places: {query}")
        if not prints:
            continue
        try:
            line, why = str(expr), None
        except tree.NodeError as error:
            line, why = "", DEEP if depth(form) >= MOST_DEPTH else CUT if cuts_to_nothing(error) else None
            report.check(why is not None, f"no text: {query}: {error}")
        if line and line != promql.canonical(query):
            why = why_other_line(query, form, line)
            report.check(why is not None, f"another line: {query}: {line}")
        if why is None:
            report.check(line == promql.canonical(query), f"another line: {query}: {line}")
        else:
            report.reasons[why] += 1
    return report


def are_places(query, expr):
    """Whether the nodes of a query's tree have places, and each but the second argument of `info` is what its place reads as."""
    import promql

    nodes, places = list(expr.walk()), promql.places(query)
    for node, (start, end) in zip(nodes, places):
        try:
            if promql.parse(query[start:end]) != node.to_json():
                return False
        except promql.QueryError:
            if not query[start:end].startswith("{"):
                return False
    return len(nodes) == len(places)


def cuts_to_nothing(error):
    """Whether the error is about a range or a step of 0 milliseconds: one that was shorter than a millisecond."""
    return 0 in (getattr(error.node, "range", None), getattr(error.node, "step", None))


# ---- changes


def normal(expr):
    """The tree without what means nothing: parentheses, the order of matchers, a matching that says nothing."""
    from promql import tree

    def changed(node):
        if isinstance(node, tree.Paren):
            return node.expr
        if isinstance(node, (tree.Selector, tree.RangeSelector)):
            groups = tuple(tuple(sorted(group, key=repr)) for group in node.or_matchers)
            return node.replace(matchers=tuple(sorted(node.matchers, key=repr)), or_matchers=groups)
        if isinstance(node, tree.Binary) and node.matching == tree.Matching():
            return node.replace(matching=None)
        return node

    return tree.transform(expr, changed)


def with_node(expr, place, node):
    """The tree with another expression in this place of a walk."""
    if place == 0:
        return node
    children = list(expr.children())
    first = 1
    for number, child in enumerate(children):
        count = sum(1 for _ in child.walk())
        if place < first + count:
            children[number] = with_node(child, place - first, node)
            return expr.with_children(children)
        first += count
    raise IndexError(place)


def changed(generator, trees):
    """A tree that was changed in one place."""
    from promql import tree

    expr = generator.choice(trees)
    nodes = list(expr.walk())
    for _ in range(20):
        place = generator.randrange(len(nodes))
        node = nodes[place]
        if isinstance(node, (tree.Selector, tree.RangeSelector)) and generator.random() < 0.6:
            op, value = generator.choice(("=", "!=", "=~", "!~")), generator.choice(("", "x", "é|.*", "("))
            return with_node(expr, place, node.with_matcher(tree.Matcher(generator.choice("abc"), op, value)))
        if isinstance(node, tree.Binary) and generator.random() < 0.6:
            return with_node(expr, place, node.replace(lhs=node.rhs, rhs=node.lhs))
        if generator.random() < 0.2:
            return with_node(expr, place, generator.choice(list(generator.choice(trees).walk())))
    return expr


def check_changed(count, seed):
    from promql import tree

    report = Report()
    generator = random.Random(seed)
    trees = [expr for _, form, expr in read_trees() if depth(form) < 60]
    prints = can_print()
    for _ in range(count):
        expr = changed(generator, trees)
        report.check(tree.from_json(expr.to_json()) == expr, f"another form: {expr!r}")
        if not prints:
            continue
        try:
            line = str(expr)
            report.check(normal(tree.parse(line)) == normal(expr), f"read otherwise: {line}: {expr!r}")
            report.reasons["printed"] += 1
        except tree.NodeError as error:
            names_node = any(node is error.node for node in expr.walk()) and error.path.startswith("$") and error.message
            report.check(names_node, f"no node: {error!r}")
            report.reasons["not printed, with the reason"] += 1
    return report


def main(words):
    if words[:1] == ["write"] and len(words) == 2:
        write_queries(Path(words[1]))
        return 0
    import promql

    promql.set_limits(max_len=rows.MAX_LEN, max_patterns=rows.MAX_PATTERNS)
    if words == ["rows"]:
        report = check_rows()
    elif words[:1] == ["changed"] and len(words) == 3:
        report = check_changed(int(words[1]), int(words[2]))
    else:
        sys.exit(__doc__)
    for reason, count in report.reasons.items():
        print(f"{reason}: {count}")
    return report.end()


if __name__ == "__main__":
    sys.exit(main(sys.argv[1:]))
