"""The functions of the language, by their names: docs/reference/functions.md has the table.

>>> from promql.functions import FUNCTIONS
>>> FUNCTIONS["rate"].arg_types
('matrix',)
"""

from __future__ import annotations

from types import MappingProxyType
from typing import Mapping, NamedTuple, Tuple

from ._function_table import ROWS
from .forms import FunctionForm, ValueType


class Function(NamedTuple):
    """A function: its name, the types of its arguments in order, a number that says how many arguments may be given, the type of its value,
    and whether it is experimental."""

    name: str
    arg_types: Tuple[ValueType, ...]
    variadic: int
    return_type: ValueType
    experimental: bool

    def to_json(self) -> FunctionForm:
        """Its JSON form."""
        return {
            "argTypes": list(self.arg_types), "experimental": self.experimental, "name": self.name, "returnType": self.return_type,
            "variadic": self.variadic,
        }


_FUNCTIONS = [Function(name, types, variadic, value, is_new) for types, variadic, value, is_new, names in ROWS for name in names.split()]
FUNCTIONS: Mapping[str, Function] = MappingProxyType({it.name: it for it in sorted(_FUNCTIONS)})
