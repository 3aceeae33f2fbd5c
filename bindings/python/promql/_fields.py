"""The fields of nodes, by their annotations: what each may have, so that no wrong value gets far from its cause, how it is read from a member of a
JSON form, and how it is written there. A node has a slot for each of its fields, and no dictionary."""

from __future__ import annotations

import dataclasses
from typing import Any, Callable, Dict, Optional, Tuple, Type, TypeVar, cast

from ._members import HIGHEST, LOWEST, Members, NoneType

AnyClass = TypeVar("AnyClass")
# How a member of this name is read, and how one is put into a form.
Read = Callable[[Members, str], Any]
Write = Callable[[Dict[str, Any], str, Any], None]


def write_list(form: Dict[str, Any], member: str, value: Any) -> None:
    form[member] = list(value)


class Kind:
    """What a field may have: values of these types, as the words say, and in a tuple such items."""

    def __init__(
        self, types: Tuple[type, ...], words: str, read: Optional[Read] = None, write: Optional[Write] = None,
        item: Optional[Kind] = None
    ) -> None:
        self.types = types
        self.words = words
        # How it is read; an expression, which is not, has a node of its own. How it is written, where the form has no such value.
        self.read = read
        self.write = write
        self._item = item
        # Of these types all values are right.
        self.sure = frozenset(types) - {int, tuple}

    def fault(self, value: object) -> Optional[Tuple[str, str, Type[Exception]]]:
        """What is wrong with a value, or None: an item of it or nothing, what was expected, and the kind of the error."""
        # (a bool is an int of Python)
        if not isinstance(value, self.types) or isinstance(value, bool) and bool not in self.types:
            return "", self.words, TypeError
        if self._item and isinstance(value, tuple):
            for number, it in enumerate(value):
                fault = None if type(it) in self._item.sure else self._item.fault(it)
                if fault:
                    return f"[{number}]{fault[0]}", fault[1], fault[2]
        elif isinstance(value, int) and not LOWEST <= value <= HIGHEST:
            return "", "a whole number from -2^63 to 2^64 - 1", ValueError
        return None


_TEXT = Kind((str,), "a string", Members.text)
# By the annotations of fields. The classes of nodes enter theirs.
KINDS: Dict[str, Kind] = {
    "str": _TEXT, "bool": Kind((bool,), "True or False", Members.flag), "int": Kind((int,), "a whole number", Members.whole),
    "Optional[str]": Kind((str, NoneType), "a string or None", Members.text_or_none),
    "Optional[int]": Kind((int, NoneType), "a whole number or None", Members.whole_or_none),
    "Tuple[str, ...]": Kind((tuple,), "a tuple of strings", Members.texts, write_list, _TEXT),
}


# A field of a node, its kind, and what it has where nothing is said; one that is a member of the form, that, and how it is read and written.
Field = Tuple[str, Kind, object]
FormField = Tuple[str, str, Read, Optional[Write]]


def with_slots(kind: Type[AnyClass]) -> Type[AnyClass]:
    """The same frozen dataclass over bases that have slots, too, with a slot for each field. (Python's own need version 3.10, and raise
    TypeError where an attribute is set that is no field.)"""
    fields, renamed = dataclasses.fields(cast(Any, kind)), vars(kind).get("RENAMED", {})
    names = tuple(field.name for field in fields)
    members: Dict[str, Any] = {name: value for name, value in vars(kind).items() if name not in (*names, "__dict__", "__weakref__")}

    def set_attribute(self: object, name: str, value: object) -> None:
        check_change(self, name)
        object.__setattr__(self, name, value)

    def delete_attribute(self: object, name: str) -> None:
        check_change(self, name)
        object.__delattr__(self, name)

    def check_change(node: object, name: str) -> None:
        if type(node) is made or name in names:
            raise dataclasses.FrozenInstanceError(f"cannot assign to field {name!r}")

    kinds = {it.name: KINDS[str(it.type)] for it in fields}
    members["FIELDS"] = tuple((it.name, kinds[it.name], it.default) for it in fields)
    members["FORM"] = tuple((name, renamed.get(name, name), it.read, it.write) for name, it in kinds.items() if it.read)
    members.update(__slots__=names, __setattr__=set_attribute, __delattr__=delete_attribute)
    made = cast(Any, type(kind))(kind.__name__, kind.__bases__, members)
    made.__qualname__ = kind.__qualname__
    return cast(Type[AnyClass], made)
