"""The expressions of a tree: promql.tree says what they are for."""

from __future__ import annotations

from dataclasses import dataclass
from decimal import Decimal
from typing import Any, ClassVar, Dict, Iterator, List, Optional, Sequence, Tuple, Type, TypeVar, Union, cast

from ._fields import KINDS as FIELD_KINDS
from ._fields import Kind, with_slots
from ._members import FormError, Members, NoneType
from ._parts import Matcher, Matching, Node
from .forms import Form, RangeMode, StartOrEnd
from .functions import FUNCTIONS, Function

_MOST_DIGITS = 400
_TOO_MANY_DIGITS = f"the number has more than {_MOST_DIGITS} digits before or after its point"

# The time after `@`: milliseconds since the epoch, `start` or `end`.
At = Union[int, StartOrEnd]
# That of a call, whose form has all of the function.
FunctionName = str
AnyExpr = TypeVar("AnyExpr", bound="Expr")


class Expr(Node):
    """An expression: one of the classes below it. `str` prints it on one line, in parentheses where the tree needs them.

    What it prints was read again by the library, and has this tree. Where there is no such text NodeError is raised.
    """

    __slots__ = ("_place",)

    _place: Tuple[int, int]

    # The `type` of its JSON form, and its fields that have the expressions below it, in the order of a walk.
    TYPE: ClassVar[str]
    CHILDREN: ClassVar[Tuple[str, ...]] = ()

    def steps(self) -> Iterator[Tuple[str, Expr]]:
        """The expressions right below it, each with the member of the JSON form that it is: `lhs`, `args[0]`."""
        for name in self.CHILDREN:
            value = getattr(self, name)
            if isinstance(value, Expr):
                yield name, value
            elif value is not None:
                yield from ((f"{name}[{number}]", it) for number, it in enumerate(value))

    def children(self) -> Tuple[Expr, ...]:
        """The expressions right below it: the parameter of an aggregation comes before what is aggregated."""
        return tuple([it for _, it in self.steps()])

    def with_children(self: AnyExpr, children: Sequence[Expr]) -> AnyExpr:
        """The same over other expressions, of which there are as many."""
        if len(children) != len(self.children()):
            raise ValueError(f"expected {len(self.children())} children, got {len(children)}")
        fields: Dict[str, Any] = {}
        rest = iter(children)
        for name in self.CHILDREN:
            value = getattr(self, name)
            if isinstance(value, Expr):
                fields[name] = next(rest)
            elif value is not None:
                fields[name] = tuple(next(rest) for _ in value)
        return self.replace(**fields) if fields else self

    def __eq__(self, other: object) -> bool:
        """Whether it is the same expression, wherever both are from. (Without recursion: a query may have more levels than Python calls.)"""
        if type(self) is not type(other):
            return NotImplemented
        left: List[Tuple[Expr, Expr]] = [(self, cast(Expr, other))]
        while left:
            one, two = left.pop()
            if one is two:
                continue
            if type(one) is not type(two) or one._own_values() != two._own_values():
                return False
            left.extend(zip(one.children(), two.children()))
        return True

    def __hash__(self) -> int:
        return hash(tuple((type(node), node._own_values()) for node in self.walk()))

    def _own_values(self) -> Tuple[object, ...]:
        """What its fields have; of those with expressions, how many."""
        values = ((name, getattr(self, name)) for name in self.field_names())
        return tuple(_count(value) if name in self.CHILDREN else value for name, value in values)

    @property
    def place(self) -> Optional[Tuple[int, int]]:
        """The part of the query that it was read from, `query[start:end]`. None where `parse` was not asked for places, and of an expression
        that was made or changed since. Two expressions are equal wherever they are from."""
        return getattr(self, "_place", None)

    def set_place(self, place: Tuple[int, int]) -> None:
        """Says where it is from. For `parse`."""
        object.__setattr__(self, "_place", place)

    def walk(self) -> Iterator[Expr]:
        """This expression and all below it: each before those below it, and these in the order of `children`."""
        left: List[Expr] = [self]
        while left:
            expr = left.pop()
            yield expr
            left.extend(reversed(expr.children()))

    def members(self) -> Dict[str, Any]:
        """The members of its JSON form that are no expressions."""
        form: Dict[str, Any] = {"type": self.TYPE, **self.FIXED}
        for name, member, _, write in self.FORM:
            if write:
                write(form, member, getattr(self, name))
            else:
                form[member] = getattr(self, name)
        return form

    def to_json(self) -> Form:
        """The JSON form, as dictionaries and lists. Raises NodeError where a call is of no function."""
        from ._printing import form_of

        return form_of(self)

    def pretty(self, *, width: int = 100, level: int = 0) -> str:
        """The text, laid out over several lines where one would have more than `width` bytes, as by `promql.pretty`."""
        from ._printing import layout_of

        return layout_of(self, width, level)

    def __str__(self) -> str:
        from ._printing import line_of

        return line_of(self)


def _count(value: object) -> int:
    """How many expressions a field has."""
    return len(value) if isinstance(value, tuple) else int(value is not None)


# ---- the fields that expressions alone have


def _write_matching(form: Dict[str, Any], member: str, matching: Optional[Matching]) -> None:
    form[member] = matching.to_json() if matching else None


def _read_mode(members: Members, name: str) -> Optional[str]:
    return members.word(name, ("smoothed", "anchored")) if members.has(name) else None


def _write_mode(form: Dict[str, Any], member: str, mode: Optional[str]) -> None:
    if mode is not None:
        form[member] = mode


def _read_at(members: Members, name: str) -> Optional[At]:
    timestamp: Optional[int] = members.whole_or_none("timestamp")
    if members.value("startOrEnd") is None:
        return timestamp
    if timestamp is not None:
        raise members.error("timestamp", "expected null beside startOrEnd")
    return cast(At, members.word("startOrEnd", ("start", "end")))


def _write_at(form: Dict[str, Any], member: str, at: Optional[At]) -> None:
    form["startOrEnd"], form["timestamp"] = (at, None) if isinstance(at, str) else (None, at)


def _read_function(members: Members, name: str) -> str:
    func, word = members.value(name), str(members.below(name).text("name"))
    if word not in FUNCTIONS:
        raise FormError(f"{members.path}.{name}.name", "expected the name of a function")
    if func != FUNCTIONS[word].to_json():
        raise members.error(name, f"expected the function {word}")
    return word


def _write_function(form: Dict[str, Any], member: str, name: str) -> None:
    """(without its function's, where there is none of this name)"""
    if name in FUNCTIONS:
        form[member] = FUNCTIONS[name].to_json()


_EXPR = Kind((Expr,), "an expression")
FIELD_KINDS.update({
    "Expr": _EXPR,
    "Optional[Expr]": Kind((Expr, NoneType), "an expression or None"),
    "Tuple[Expr, ...]": Kind((tuple,), "a tuple of expressions", item=_EXPR),
    "Optional[Matching]": Kind((Matching, NoneType), "Matching or None", lambda it, name: it.value(name) and Matching.read(it.below(name)), _write_matching),
    "Optional[RangeMode]": Kind((str, NoneType), "a string or None", _read_mode, _write_mode),
    "Optional[At]": Kind((int, str, NoneType), "a whole number, a string or None", _read_at, _write_at),
    "FunctionName": Kind((str,), "a string", _read_function, _write_function),
})


@with_slots
@dataclass(frozen=True, repr=False, eq=False)
class Aggregation(Expr):
    """An aggregation: `op` is `sum`, `topk` and so on. `grouping` has the labels after `by`, or after `without` where that is true.
    `param` is what operators such as `topk` have before the expression."""

    TYPE: ClassVar[str] = "aggregation"
    CHILDREN: ClassVar[Tuple[str, ...]] = ("param", "expr")

    op: str
    expr: Expr
    grouping: Tuple[str, ...] = ()
    without: bool = False
    param: Optional[Expr] = None


@with_slots
@dataclass(frozen=True, repr=False, eq=False)
class Unary(Expr):
    """A minus before an expression."""

    TYPE: ClassVar[str] = "unaryExpr"
    CHILDREN: ClassVar[Tuple[str, ...]] = ("expr",)
    FIXED: ClassVar[Dict[str, str]] = {"op": "-"}

    expr: Expr


@with_slots
@dataclass(frozen=True, repr=False, eq=False)
class Binary(Expr):
    """A binary expression: `op` is `+`, `==`, `and` and so on, and `return_bool` says whether the word `bool` is there."""

    TYPE: ClassVar[str] = "binaryExpr"
    CHILDREN: ClassVar[Tuple[str, ...]] = ("lhs", "rhs")
    RENAMED: ClassVar[Dict[str, str]] = {"return_bool": "bool"}

    lhs: Expr
    op: str
    rhs: Expr
    return_bool: bool = False
    matching: Optional[Matching] = None


@with_slots
@dataclass(frozen=True, repr=False, eq=False)
class Paren(Expr):
    """An expression in parentheses."""

    TYPE: ClassVar[str] = "parenExpr"
    CHILDREN: ClassVar[Tuple[str, ...]] = ("expr",)

    expr: Expr


@with_slots
@dataclass(frozen=True, repr=False, eq=False)
class Subquery(Expr):
    """A subquery: its range, its step and its offset are milliseconds. `at` is the time after `@`: milliseconds since the epoch, `start`
    or `end`."""

    TYPE: ClassVar[str] = "subquery"
    CHILDREN: ClassVar[Tuple[str, ...]] = ("expr",)

    expr: Expr
    range: int
    step: Optional[int] = None
    offset: int = 0
    at: Optional[At] = None


@with_slots
@dataclass(frozen=True, repr=False, eq=False)
class Number(Expr):
    """A number. It has at most 38 digits, and they are exact, so its value is a text, as it prints: `0.5`, `-Inf`, `NaN`."""

    TYPE: ClassVar[str] = "numberLiteral"
    RENAMED: ClassVar[Dict[str, str]] = {"value": "val"}

    value: str

    @classmethod
    def of(cls, value: Union[int, float, Decimal]) -> Number:
        """The number with this value: of a float, that which its `repr` shows. ValueError where it has hundreds of digits before or after
        the point: no float has as many."""
        if isinstance(value, int) and value.bit_length() > 8 * _MOST_DIGITS:
            raise ValueError(_TOO_MANY_DIGITS)
        number = Decimal(repr(value)) if isinstance(value, float) else Decimal(value)
        if not number.is_finite():
            return cls("NaN" if number.is_nan() else "Inf" if number > 0 else "-Inf")
        if abs(number.adjusted()) > _MOST_DIGITS or len(number.as_tuple().digits) > 2 * _MOST_DIGITS:
            raise ValueError(_TOO_MANY_DIGITS)
        digits = format(number, "f")
        if "." in digits:
            digits = digits.rstrip("0").rstrip(".")
        return cls("0" if digits == "-0" else digits)

    def decimal(self) -> Decimal:
        """Its value."""
        return Decimal(self.value)


@with_slots
@dataclass(frozen=True, repr=False, eq=False)
class String(Expr):
    """A string: its text without the quotes."""

    TYPE: ClassVar[str] = "stringLiteral"
    RENAMED: ClassVar[Dict[str, str]] = {"value": "val"}

    value: str


@with_slots
@dataclass(frozen=True, repr=False, eq=False)
class Selector(Expr):
    """A selector: its name before the braces or None, and its matchers. `or_matchers` are the groups between `or`, and `matchers` those
    that are in none. The offset is milliseconds, and `at` the time after `@`: milliseconds since the epoch, `start` or `end`."""

    TYPE: ClassVar[str] = "vectorSelector"

    name: Optional[str]
    matchers: Tuple[Matcher, ...] = ()
    or_matchers: Tuple[Tuple[Matcher, ...], ...] = ()
    offset: int = 0
    at: Optional[At] = None

    def with_matcher(self, matcher: Matcher) -> Selector:
        """The same with a matcher more: in each group, where there are groups."""
        return cast(Selector, _with_matcher(self, matcher))


@with_slots
@dataclass(frozen=True, repr=False, eq=False)
class RangeSelector(Expr):
    """A selector with a range of milliseconds, as in `foo[5m]`. `mode` is `smoothed`, `anchored` or None; all else is as in Selector."""

    TYPE: ClassVar[str] = "matrixSelector"
    RENAMED: ClassVar[Dict[str, str]] = {"mode": "rangeMode"}

    name: Optional[str]
    range: int
    matchers: Tuple[Matcher, ...] = ()
    or_matchers: Tuple[Tuple[Matcher, ...], ...] = ()
    offset: int = 0
    at: Optional[At] = None
    mode: Optional[RangeMode] = None

    def with_matcher(self, matcher: Matcher) -> RangeSelector:
        """The same with a matcher more: in each group, where there are groups."""
        return cast(RangeSelector, _with_matcher(self, matcher))


@with_slots
@dataclass(frozen=True, repr=False, eq=False)
class Call(Expr):
    """A call of the function of this name."""

    TYPE: ClassVar[str] = "call"
    CHILDREN: ClassVar[Tuple[str, ...]] = ("args",)
    RENAMED: ClassVar[Dict[str, str]] = {"name": "func"}

    name: FunctionName
    args: Tuple[Expr, ...] = ()

    @property
    def function(self) -> Optional[Function]:
        """The function, with its types; None where there is none of this name."""
        return FUNCTIONS.get(self.name)


def _with_matcher(selector: Union[Selector, RangeSelector], matcher: Matcher) -> Expr:
    if not selector.or_matchers:
        return selector.replace(matchers=(*selector.matchers, matcher))
    return selector.replace(or_matchers=tuple((*group, matcher) for group in selector.or_matchers))


_ALL: Tuple[Type[Expr], ...] = (Aggregation, Binary, Call, Number, Paren, RangeSelector, Selector, String, Subquery, Unary)
KINDS = {kind.TYPE: kind for kind in _ALL}
