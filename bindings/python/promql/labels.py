"""What each node of a query is: its kind, its label and the nodes below it.

The label of a node is what the canonical line has of it beside the nodes below: of `sum by (job) (rate(foo[5m]))` they are
`sum by (job)`, `rate` and `foo[5m]`.
"""

from __future__ import annotations

from typing import Any, Dict, List, NamedTuple, Sequence, Tuple

import promql

Tree = Dict[str, Any]


class Kind(NamedTuple):
    """A kind of node: its name, and the members of the JSON form that have the nodes below."""

    name: str
    members: Tuple[str, ...] = ()


_KINDS = {
    "aggregation": Kind("aggregation", ("param", "expr")), "unaryExpr": Kind("sign", ("expr",)),
    "binaryExpr": Kind("operator", ("lhs", "rhs")), "parenExpr": Kind("parentheses", ("expr",)), "subquery": Kind("subquery", ("expr",)),
    "numberLiteral": Kind("number"), "stringLiteral": Kind("string"), "vectorSelector": Kind("selector"),
    "matrixSelector": Kind("range selector"), "call": Kind("call", ("args",)),
}


def kind_of(tree: Tree) -> str:
    return _KINDS[tree["type"]].name


def children_of(tree: Tree) -> List[Tree]:
    """The nodes below, in the order of the query."""
    below: List[Tree] = []
    for member in _KINDS[tree["type"]].members:
        value = tree[member]
        if isinstance(value, list):
            below.extend(value)
        elif value is not None:
            below.append(value)
    return below


def nodes_of(tree: Tree) -> List[Tree]:
    """All nodes of a tree, each before those below it: the order of `promql.places`."""
    found: List[Tree] = []
    todo = [tree]
    while todo:
        node = todo.pop()
        found.append(node)
        todo += reversed(children_of(node))
    return found


def labels_of(line: str, nodes: Sequence[Tree]) -> List[str]:
    """The labels of the nodes of a canonical line, which are all of its tree, in their order."""
    places = {id(node): place for node, place in zip(nodes, promql.places(line))}
    return [_label(line, node["type"], places[id(node)], [places[id(child)] for child in children_of(node)]) for node in nodes]


def _label(line: str, kind: str, place: Tuple[int, int], below: Sequence[Tuple[int, int]]) -> str:
    starts, ends = [*(start for start, _ in below), place[1]], [place[0], *(end for _, end in below)]
    text = "".join(line[end:start] for end, start in zip(ends, starts)).strip()
    if kind in ("call", "aggregation"):
        return text[: text.rindex("(")].rstrip()
    return "( )" if kind == "parenExpr" else text
