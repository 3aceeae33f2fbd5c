"""From a tree to its JSON form and to its text, and back from the form; and which expression of a tree is at fault."""

from __future__ import annotations

import json
from typing import Any, Callable, Dict, List, NamedTuple, Optional, Protocol, Tuple, Type, Union, cast

import promql

from ._answers import Answer, Mode
from ._calls import calls
from ._members import FormError, Members
from ._nodes import KINDS, Aggregation, Binary, Call, Expr, Number, Paren, RangeSelector, Selector, String, Subquery, Unary
from ._parts import ManyToOne, Matcher, Matching, Node, OneToMany
from .forms import Form, ValueType
from .functions import FUNCTIONS


class Place(NamedTuple):
    """An expression of a tree: the number of the one above it in the list, below 0 for the whole, and the member of its form that it is."""

    expr: Expr
    above: int
    step: str


def places_in(tree: Expr) -> List[Place]:
    """The expressions of a tree, in the order of a walk."""
    found: List[Place] = []
    left = [Place(tree, -1, "$")]
    while left:
        place = left.pop()
        left.extend(reversed([Place(it, len(found), step) for step, it in place.expr.steps()]))
        found.append(place)
    return found


def path_of(places: List[Place], place: Place) -> str:
    """The path of an expression of the list in the JSON form."""
    steps = [place.step]
    while place.above >= 0:
        place = places[place.above]
        steps.append(place.step)
    return ".".join(reversed(steps))


def node_at(tree: Expr, path: str) -> Expr:
    """The expression at a path, or the last one on the way there."""
    expr = tree
    for step in path.split(".")[1:]:
        below = dict(expr.steps())
        if step not in below:
            break
        expr = below[step]
    return expr


def first_without_text(tree: Expr, has_text: Callable[[Expr], bool]) -> Tuple[str, Expr]:
    """The lowest expression that has no text, though all below it have one: that is where the fault is. Each expression is tried once, over
    stand-ins for those below it, so that no part of the tree is printed again and again."""
    places = places_in(tree)
    below: List[Tuple[Expr, ValueType]] = []
    for place in reversed(places):
        expr = place.expr
        # (those of the children are the last ones, the first child's at the end)
        children = [below.pop() for _ in expr.children()]
        # (the second argument of `info`, a selector, need not be a query by itself)
        is_part = place.step == "args[1]" and isinstance(expr, Selector) and _is_info(places[place.above].expr)
        if not is_part and not has_text(_over_stand_ins(expr, children)):
            return path_of(places, place), expr
        below.append((expr, _value_type(expr, children)))
    return "$", tree


def _is_info(expr: Expr) -> bool:
    return isinstance(expr, Call) and expr.name == "info"


def _value_type(expr: Expr, children: List[Tuple[Expr, ValueType]]) -> ValueType:
    if isinstance(expr, Call):
        return expr.function.return_type if expr.function else "vector"
    if isinstance(expr, (Number, String)):
        return "scalar" if isinstance(expr, Number) else "string"
    if isinstance(expr, (RangeSelector, Subquery)):
        return "matrix"
    if isinstance(expr, (Paren, Unary)):
        return children[0][1]
    is_scalar = isinstance(expr, Binary) and all(kind == "scalar" for _, kind in children)
    return "scalar" if is_scalar else "vector"


def _stand_in(expr: Expr, kind: ValueType) -> Expr:
    """A small expression of the same type; of a literal the literal, since its value may matter."""
    if isinstance(expr, (Number, String)):
        return expr
    if kind == "matrix":
        return RangeSelector("a", 1)
    if kind == "vector":
        return Selector("a")
    return Call("time") if kind == "scalar" else String("")


def _over_stand_ins(expr: Expr, children: List[Tuple[Expr, ValueType]]) -> Expr:
    """The same expression over stand-ins for its children."""
    made = [_stand_in(child, kind) for child, kind in children]
    if _is_info(expr) and len(made) > 1 and isinstance(children[1][0], Selector):
        made[1] = children[1][0]
    return expr.with_children(made)


class NodeCalls(Protocol):
    """The calls of the extension that makes nodes, and writes their form, itself. Without one it is done here, with the same trees."""

    def learn_nodes(self, classes: Tuple[Tuple[Type[Node], Tuple[str, ...]], ...], forms: Dict[str, bytes], /) -> None:
        """Tells it the classes, in the order of `enum kind` of _native.h, with their fields, and the forms of the functions."""

    def read_tree(self, query: str, /) -> Union[Expr, Answer]:
        """The tree of a query, or the text of its form where that is another one than is known, or why there is none."""

    def print_nodes(self, tree: Expr, mode: int, level: int, width: int, /) -> Optional[Answer]:
        """The text of a tree in parentheses where it needs them, or why there is none; None where its form is not written."""


def _calls_of_nodes() -> Optional[NodeCalls]:
    """Those of the extension; None where there is none, or it is of an older release."""
    if not hasattr(calls, "learn_nodes"):
        return None
    found = cast(NodeCalls, calls)
    kinds: Tuple[Type[Node], ...] = (*KINDS.values(), Matcher, Matching, ManyToOne, OneToMany)
    forms = {name: json.dumps(function.to_json(), separators=(",", ":")).encode() for name, function in FUNCTIONS.items()}
    found.learn_nodes(tuple((kind, kind.field_names()) for kind in kinds), forms)
    return found


_TOO_DEEP = "nested too deeply"
# The most nodes above one another that are read.
_MOST_HEIGHT = 100_000
_node_calls = _calls_of_nodes()


class NodeError(promql.Error):
    """A tree has no text: `message` says why.

    `path` is that of the part at fault in the JSON form, as `$.lhs.args[0]`, and `node` the expression there, or the one that has it. What
    `promql.print_tree` would raise is its cause: TreeError where a part is none of a query, UnfaithfulError where the text would mean
    another tree, TooLargeTreeError where it is too long.
    """

    def __init__(self, message: str, path: str, node: Expr) -> None:
        super().__init__(message, path, node)
        self.message = message
        self.path = path
        self.node = node

    def __str__(self) -> str:
        return f"{self.path}: {self.message}"


# ---- from and to the form


def form_of(tree: Expr) -> Form:
    forms: List[Dict[str, Any]] = []
    places = places_in(tree)
    for place in reversed(places):
        expr = place.expr
        if isinstance(expr, Call) and expr.function is None:
            raise NodeError(f"there is no function '{expr.name}'", f"{path_of(places, place)}.func.name", expr)
        form = expr.members()
        # (those of the children were made before, the last one first)
        for name in expr.CHILDREN:
            value = getattr(expr, name)
            if isinstance(value, tuple):
                form[name] = [forms.pop() for _ in value]
            else:
                form[name] = None if value is None else forms.pop()
        forms.append(form)
    return cast(Form, forms.pop())


def tree_of_query(query: str) -> Expr:
    if _node_calls is None:
        return tree_of(promql.parse(query))
    answer = _node_calls.read_tree(query)
    return answer if isinstance(answer, Expr) else tree_of(json.loads(promql._text(query, answer)))


def tree_of(form: object) -> Expr:
    """The tree of a JSON form."""
    left: List[Members] = [Members(form)]
    found: List[Tuple[Members, List[Tuple[str, Optional[int]]]]] = []
    while left:
        members = left.pop()
        if members.depth == _MOST_HEIGHT:
            raise FormError(members.path, f"expected a tree of at most {_MOST_HEIGHT:,} nodes above one another")
        below: List[Members] = []
        counts: List[Tuple[str, Optional[int]]] = []
        kind = KINDS[members.word("type", tuple(KINDS))]
        for name in kind.CHILDREN:
            if kind is Call:
                below.extend(members.objects(name))
                counts.append((name, len(below)))
            elif kind is not Aggregation or name != "param" or members.value(name) is not None:
                below.append(members.below(name))
                counts.append((name, None))
        left.extend(reversed(below))
        found.append((members, counts))
    built: List[Expr] = []
    for members, counts in reversed(found):
        children: Dict[str, Any] = {}
        for name, count in counts:
            children[name] = built.pop() if count is None else tuple(built.pop() for _ in range(count))
        built.append(KINDS[members.value("type")].read(members, children))
    return built.pop()


# ---- to a text


def line_of(tree: Expr) -> str:
    return _printed(tree, Mode.LINE, 0, 0)


def text_of_matcher(matcher: Matcher) -> str:
    """(A selector with a name has no other matcher of `__name__`. What is after the label is the same for each label.)"""
    if matcher.name == "__name__":
        return matcher.name + text_of_matcher(matcher.replace(name="a"))[1:]
    return line_of(Selector("x", (matcher,)))[2:-1]


def text_of_matching(matching: Matching) -> str:
    operator = "and" if matching.card == "many-to-many" else "+"
    return line_of(Binary(Selector("x"), operator, Selector("y"), matching=matching))[len(f"x {operator} ") : -2]


def layout_of(tree: Expr, width: int, level: int) -> str:
    return _printed(tree, Mode.PRETTY, promql._number("level", level, promql._MAX_LEVEL), promql._number("width", width, promql._MAX_SIZE))


def _printed(tree: Expr, mode: Mode, level: int, width: int) -> str:
    answer = _answer(tree, mode, level, width)
    if isinstance(answer, str):
        return answer
    error = promql._tree_error(answer)
    if isinstance(error, promql.TreeError):
        path, colon, message = str(error).partition(": ")
        if not colon:
            # (the form is JSON, but deeper than the library reads)
            raise NodeError(_TOO_DEEP, "$", tree) from error
        raise NodeError(message, path, node_at(tree, path)) from error
    if isinstance(error, promql.UnfaithfulError):
        path, node = first_without_text(tree, lambda expr: isinstance(_answer(expr, Mode.LINE, 0, 0), str))
        raise NodeError(str(error), path, node) from error
    if isinstance(error, promql.TooLargeTreeError):
        raise NodeError(str(error), "$", tree) from error
    raise error


def _answer(tree: Expr, mode: Mode, level: int, width: int) -> Answer:
    answer = None if _node_calls is None else _node_calls.print_nodes(tree, mode, level, width)
    if answer is not None:
        return answer
    try:
        form = json.dumps(form_of(tree), ensure_ascii=False, separators=(",", ":"))
    except RecursionError as error:
        # (the library reads fewer levels than Python writes)
        raise NodeError(_TOO_DEEP, "$", tree) from error
    return calls.print_tree(form, mode, level, width, 1)
