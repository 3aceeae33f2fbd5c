"""The parts of expressions that are none themselves, and what all nodes of a tree have in common."""

from __future__ import annotations

import dataclasses
from dataclasses import dataclass
from typing import Any, ClassVar, Dict, List, Literal, Optional, Tuple, Type, TypeVar, Union, cast

from ._fields import KINDS, Field, FormField, Kind, with_slots
from ._members import Members
from .forms import MatchOp

AnyNode = TypeVar("AnyNode", bound="Node")
MATCH_OPS = ("=", "!=", "=~", "!~")
KINDS["MatchOp"] = Kind((str,), "a string", lambda members, name: members.word(name, MATCH_OPS))


class Node:
    """What has fields: an expression, or a part of one. A field of another type is a TypeError."""

    __slots__ = ("__weakref__",)

    # The fields, and those that are members of the JSON form; the members with another name, and those that are the same in each form.
    FIELDS: ClassVar[Tuple[Field, ...]] = ()
    FORM: ClassVar[Tuple[FormField, ...]] = ()
    RENAMED: ClassVar[Dict[str, str]] = {}
    FIXED: ClassVar[Dict[str, str]] = {}

    def __post_init__(self) -> None:
        """Raises TypeError where a field has a value of another type, and ValueError where a whole number is out of range."""
        for name, kind, default in self.FIELDS:
            value = getattr(self, name)
            fault = None if value is default or type(value) in kind.sure else kind.fault(value)
            if fault:
                item, expected, error = fault
                got = f", got {type(value).__name__}" if error is TypeError and not item else ""
                raise error(f"{type(self).__name__}.{name}{item}: expected {expected}{got}")

    @classmethod
    def read(cls: Type[AnyNode], members: Members, children: Dict[str, Any] = {}) -> AnyNode:
        """Makes it of the members of its JSON form, and of what its fields with expressions have."""
        for name, word in cls.FIXED.items():
            members.word(name, (word,))
        found = {name: read(members, member) for name, member, read, _ in cls.FORM}
        members.end()
        return cls(**found, **children)

    @classmethod
    def field_names(cls) -> Tuple[str, ...]:
        return tuple(field.name for field in dataclasses.fields(cast(Any, cls)))

    def __getstate__(self) -> Dict[str, Any]:
        """For `pickle` and `copy`."""
        names = (*self.field_names(), "_place")
        return {**getattr(self, "__dict__", {}), **{name: getattr(self, name) for name in names if hasattr(self, name)}}

    def __setstate__(self, state: Dict[str, Any]) -> None:
        for name, value in state.items():
            object.__setattr__(self, name, value)

    def replace(self: AnyNode, **fields: Any) -> AnyNode:
        """The same with other values in these fields."""
        return cast(AnyNode, dataclasses.replace(cast(Any, self), **fields))

    def __repr__(self) -> str:
        """The call that makes it: without the fields that are as they are where nothing is said, and without the names of the first ones."""
        return _shown(self)


def _shown(value: object) -> str:
    """The `repr` of a value, that of nodes made without recursion: a query may have more levels than Python's recursion limit."""
    found: List[str] = []
    left: List[Tuple[bool, object]] = [(False, value)]
    while left:
        is_text, value = left.pop()
        if is_text:
            found.append(cast(str, value))
        elif dataclasses.is_dataclass(value):
            left.extend(reversed([(True, f"{type(value).__name__}("), *_words_of(value), (True, ")")]))
        elif type(value) is tuple:
            items: List[Tuple[bool, object]] = [part for item in value for part in ((True, ", "), (False, item))]
            left.extend(reversed([(True, "("), *items[1:], (True, ",)" if len(value) == 1 else ")")]))
        else:
            found.append(repr(value))
    return "".join(found)


def _words_of(node: object) -> List[Tuple[bool, object]]:
    """The fields to be shown, with what is between them."""
    words: List[Tuple[bool, object]] = []
    for field in dataclasses.fields(cast(Any, node)):
        value = getattr(node, field.name)
        if field.default is dataclasses.MISSING:
            words.extend(((True, ", "), (False, value)))
        elif type(value) is not type(field.default) or value != field.default:
            words.extend(((True, f", {field.name}="), (False, value)))
    if words:
        words[0] = (True, cast(str, words[0][1])[2:])
    return words


@with_slots
@dataclass(frozen=True, repr=False)
class Matcher(Node):
    """A matcher: a label, an operator, `=`, `!=`, `=~` or `!~`, and a value, which is a pattern after `=~` and `!~`."""

    RENAMED: ClassVar[Dict[str, str]] = {"op": "type"}

    name: str
    op: MatchOp
    value: str

    def __str__(self) -> str:
        """Its text, as in a selector that has it. Raises NodeError where such a selector has none."""
        from ._printing import text_of_matcher

        return text_of_matcher(self)

    def to_json(self) -> Dict[str, Any]:
        return {"name": self.name, "type": self.op, "value": self.value}


@with_slots
@dataclass(frozen=True, repr=False)
class ManyToOne(Node):
    """`group_left`, with its labels."""

    labels: Tuple[str, ...] = ()


@with_slots
@dataclass(frozen=True, repr=False)
class OneToMany(Node):
    """`group_right`, with its labels."""

    labels: Tuple[str, ...] = ()


Cardinality = Union[Literal["one-to-one", "many-to-many"], ManyToOne, OneToMany]


def _write_matchers(form: Dict[str, Any], member: str, matchers: Tuple[Matcher, ...]) -> None:
    form[member] = [it.to_json() for it in matchers]


def _read_groups(members: Members, name: str) -> Tuple[Tuple[Matcher, ...], ...]:
    groups: List[Tuple[Matcher, ...]] = []
    if not members.has(name):
        return ()
    for number, group in enumerate(members.items(name)):
        step = f"{name}[{number}]"
        if not isinstance(group, list):
            raise members.error(step, "expected a list")
        groups.append(tuple(Matcher.read(Members(it, members, f"{step}[{place}]")) for place, it in enumerate(group)))
    if not groups:
        raise members.error(name, "expected a group")
    return tuple(groups)


def _write_groups(form: Dict[str, Any], member: str, groups: Tuple[Tuple[Matcher, ...], ...]) -> None:
    if groups:
        form[member] = [[it.to_json() for it in group] for group in groups]


def _read_matchers(members: Members, name: str) -> Tuple[Matcher, ...]:
    return tuple(map(Matcher.read, members.objects(name)))


_MATCHERS = Kind((tuple,), "a tuple of Matcher", _read_matchers, _write_matchers, Kind((Matcher,), "Matcher"))
KINDS["Tuple[Matcher, ...]"] = _MATCHERS
KINDS["Tuple[Tuple[Matcher, ...], ...]"] = Kind((tuple,), "a tuple of tuples of Matcher", _read_groups, _write_groups, _MATCHERS)
KINDS["Cardinality"] = Kind((str, ManyToOne, OneToMany), "a string, ManyToOne or OneToMany")


@with_slots
@dataclass(frozen=True, repr=False)
class Matching(Node):
    """How the sides of a binary expression match: by the labels after `on`, or by all but those after `ignoring`.

    `card` says how many elements of one side match how many of the other: `one-to-one`, `many-to-many`, which only `and`, `or` and
    `unless` have, ManyToOne or OneToMany. `fill_left` and `fill_right` are the texts of numbers, or None.
    """

    on: bool = False
    labels: Tuple[str, ...] = ()
    card: Cardinality = "one-to-one"
    fill_left: Optional[str] = None
    fill_right: Optional[str] = None

    def __str__(self) -> str:
        """Its text, as after the operator of an expression that has it, which may be none. Raises NodeError where such an expression has no
        text."""
        from ._printing import text_of_matching

        return text_of_matching(self)

    def to_json(self) -> Dict[str, Any]:
        card: Any = self.card
        if isinstance(card, ManyToOne):
            card = {"many-to-one": list(card.labels)}
        elif isinstance(card, OneToMany):
            card = {"one-to-many": list(card.labels)}
        fill = {"lhs": self.fill_left, "rhs": self.fill_right}
        return {"card": card, "fillValues": fill, "include": [], "labels": list(self.labels), "on": self.on}

    @classmethod
    def read(cls, members: Members, children: Dict[str, Any] = {}) -> Matching:
        fill = members.below("fillValues")
        left, right = fill.text_or_none("lhs"), fill.text_or_none("rhs")
        fill.end()
        if members.items("include"):
            raise members.error("include", "expected an empty list")
        found = cls(members.flag("on"), members.texts("labels"), _read_cardinality(members), left, right)
        members.end()
        return found


def _read_cardinality(members: Members) -> Cardinality:
    if not isinstance(members.value("card"), dict):
        return cast(Cardinality, members.word("card", ("one-to-one", "many-to-many")))
    card = members.below("card")
    is_many_to_one = card.has("many-to-one")
    labels = card.texts("many-to-one" if is_many_to_one else "one-to-many")
    card.end()
    return ManyToOne(labels) if is_many_to_one else OneToMany(labels)
