"""Trees of queries: read one, look at it, change it, and print it.

>>> from promql import tree
>>> expr = tree.parse("rate(foo[5m])")
>>> expr
Call('rate', args=(RangeSelector('foo', 300000),))
>>> print(tree.Aggregation("sum", expr, grouping=("job",)))
sum by (job) (rate(foo[5m]))

A tree is made of frozen dataclasses, so it is never changed, and may be the key of a dictionary. Sequences in it are tuples, and a field
of another type is a TypeError where the node is made. `parse` reads one, `str` prints it, and
`from_json` and `to_json` are the ways from and to the JSON form (docs/reference/json.md), which has all that a tree has. Times and lengths
of time are whole milliseconds. docs/guide/trees.md has examples.
"""

from __future__ import annotations

from datetime import timedelta
from typing import Callable, List

import promql

from ._members import FormError
from ._nodes import Aggregation, At, Binary, Call, Expr, Number, Paren, RangeSelector, Selector, String, Subquery, Unary
from ._parts import Cardinality, ManyToOne, Matcher, Matching, OneToMany
from ._printing import NodeError, tree_of, tree_of_query

__all__ = [
    "Aggregation", "At", "Binary", "Call", "Cardinality", "Expr", "FormError", "ManyToOne", "Matcher", "Matching", "NodeError",
    "Number", "OneToMany", "Paren", "RangeSelector", "Selector", "String", "Subquery", "Unary", "from_json", "milliseconds",
    "parse", "transform",
]


def parse(query: str, *, places: bool = False) -> Expr:
    """The tree of a query. Raises what `promql.parse` raises: QueryError where the query is rejected, and, without the extension,
    RecursionError where it is nested more deeply than Python's recursion limit allows.

    Lengths of time are cut off to whole milliseconds, as in the JSON form. With `places` each expression has its `place` in the query:

    >>> query = "rate(foo[5m]) > 1"
    >>> [query[slice(*node.place)] for node in parse(query, places=True).walk() if node.place]
    ['rate(foo[5m]) > 1', 'rate(foo[5m])', 'foo[5m]', '1']
    """
    expr = tree_of_query(query)
    if places:
        for node, place in zip(expr.walk(), promql.places(query)):
            node.set_place(place)
    return expr


def from_json(form: object) -> Expr:
    """The tree of a JSON form, as `promql.parse` and `to_json` give it. Raises FormError where it is none, with the path of the first
    member at fault; also where more than 100,000 nodes are above one another, as in a dictionary that is below itself.

    Types of expressions, names and patterns are not looked at: `str` raises NodeError where they are wrong.
    """
    return tree_of(form)


def milliseconds(duration: timedelta) -> int:
    """The milliseconds of a duration, for ranges, steps and offsets. Raises ValueError where it is no whole number of them: a tree has no
    parts of one.

    >>> milliseconds(timedelta(minutes=5))
    300000
    """
    count, part = divmod(duration, timedelta(milliseconds=1))
    if part:
        raise ValueError(f"no whole number of milliseconds: {duration}")
    return count


def transform(expr: Expr, function: Callable[[Expr], Expr]) -> Expr:
    """The tree that the function makes of another one: it is called with each expression, once those below it are what it returned for
    them, and returns what stands in its place. One that it returns as it is stays.

    >>> def renamed(expr: Expr) -> Expr:
    ...     return expr.replace(name="up") if isinstance(expr, Selector) else expr
    >>> transform(parse("foo + 1"), renamed)
    Binary(Selector('up'), '+', Number('1'))
    """
    left, found = [expr], []
    while left:
        node = left.pop()
        found.append(node)
        left.extend(node.children())
    built: List[Expr] = []
    for node in reversed(found):
        children = node.children()
        first = len(built) - len(children)
        changed = built[first:]
        del built[first:]
        if any(new is not old for new, old in zip(changed, children)):
            node = node.with_children(changed)
        built.append(function(node))
    return built.pop()
