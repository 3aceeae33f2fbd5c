"""The JSON form of a query as types: what `promql.parse` gives, and `to_json` of promql.tree. docs/reference/json.md has its rules."""

from __future__ import annotations

from typing import List, Literal, Optional, TypedDict, Union

ValueType = Literal["vector", "scalar", "matrix", "string"]
MatchOp = Literal["=", "!=", "=~", "!~"]
StartOrEnd = Literal["start", "end"]
RangeMode = Literal["smoothed", "anchored"]


class MatcherForm(TypedDict):
    name: str
    type: MatchOp
    value: str


class FunctionForm(TypedDict):
    argTypes: List[ValueType]
    experimental: bool
    name: str
    returnType: ValueType
    variadic: int


class FillValuesForm(TypedDict):
    lhs: Optional[str]
    rhs: Optional[str]


ManyToOneForm = TypedDict("ManyToOneForm", {"many-to-one": List[str]})
OneToManyForm = TypedDict("OneToManyForm", {"one-to-many": List[str]})
CardinalityForm = Union[Literal["one-to-one", "many-to-many"], ManyToOneForm, OneToManyForm]


class MatchingForm(TypedDict):
    card: CardinalityForm
    fillValues: FillValuesForm
    include: List[str]
    labels: List[str]
    on: bool


class AggregationForm(TypedDict):
    type: Literal["aggregation"]
    expr: Form
    grouping: List[str]
    op: str
    param: Optional[Form]
    without: bool


class UnaryForm(TypedDict):
    type: Literal["unaryExpr"]
    expr: Form
    op: Literal["-"]


# (`bool` as a name in a class would hide the type)
BinaryForm = TypedDict(
    "BinaryForm",
    {"type": Literal["binaryExpr"], "bool": bool, "lhs": "Form", "matching": Optional[MatchingForm], "op": str, "rhs": "Form"},
)


class ParenForm(TypedDict):
    type: Literal["parenExpr"]
    expr: Form


class TimesForm(TypedDict):
    offset: int
    startOrEnd: Optional[StartOrEnd]
    timestamp: Optional[int]


class SubqueryForm(TimesForm):
    type: Literal["subquery"]
    expr: Form
    range: int
    step: Optional[int]


class NumberForm(TypedDict):
    type: Literal["numberLiteral"]
    val: str


class StringForm(TypedDict):
    type: Literal["stringLiteral"]
    val: str


class GroupsForm(TypedDict, total=False):
    or_matchers: List[List[MatcherForm]]


class ModeForm(TypedDict, total=False):
    rangeMode: RangeMode


class SelectorForm(TimesForm, GroupsForm):
    type: Literal["vectorSelector"]
    matchers: List[MatcherForm]
    name: Optional[str]


class RangeSelectorForm(TimesForm, GroupsForm, ModeForm):
    type: Literal["matrixSelector"]
    matchers: List[MatcherForm]
    name: Optional[str]
    range: int


class CallForm(TypedDict):
    type: Literal["call"]
    args: List[Form]
    func: FunctionForm


Form = Union[
    AggregationForm, BinaryForm, CallForm, NumberForm, ParenForm, RangeSelectorForm, SelectorForm, StringForm, SubqueryForm,
    UnaryForm,
]
