"""What the calls of the library give, by the extension (_native.c) or by ctypes (_library.py): promql.h says what each does."""

from __future__ import annotations

import os
from enum import IntEnum
from typing import List, Optional, Tuple, Union


class Status(IntEnum):
    OK = 0
    OUT_OF_MEMORY = 1
    NOT_UTF8 = 3
    REJECTED = 4
    NUMBER_TOO_WIDE = 6
    UNKNOWN_MODE = 9
    BAD_POINTER = 10
    BAD_MATCHER = 11
    UNFAITHFUL = 12
    BARE_INFO = 13
    TOO_LARGE = 14
    SMALL_STACK = 15
    LARGE_ENFORCED = 16
    NOT_A_TREE = 17
    LONG_OUTPUT = 18
    NOT_A_NAME = 20
    METRIC_LABEL = 21
    CLASH = 22
    READ_OTHERWISE = 23
    REFUSED = 24
    TIME_OVERFLOW = 25
    GRID_FUNCTION = 26
    NOT_LABELS = 27


Target = IntEnum("Target", ("PROMETHEUS_3", "RULES", "PROMETHEUS_2"), start=0)
Named = IntEnum("Named", ("METRIC", "LABEL"), start=0)
Mode = IntEnum("Mode", ("LINE", "PRETTY", "JSON", "PLACED_JSON"), start=0)

# The status of a call that has no text, its message, and the start, the end, the line and the column of its place; all in bytes.
Failure = Tuple[int, str, int, int, int, int]
# The text of a call, or why there is none.
Answer = Union[str, Failure]
# The lines of many queries, with None where there is none; and for each of these its number, the query, and why, or None where it has a
# surrogate.
Lines = Tuple[List[Optional[str]], List[Tuple[int, str, Optional[Failure]]]]


def library_path() -> str:
    """The library of the variable PROMQL_LIBRARY, that of the package, or in a checkout that of its dist/.

    Raises ImportError where none is for the processor of this machine."""
    named = os.environ.get("PROMQL_LIBRARY")
    if named:
        return named
    path = packaged("libpromql.so")
    if not os.path.isfile(path):
        raise ImportError(f"no release of promql is for the processor {os.uname().machine}: there is no {path}")
    return path


def packaged(name: str) -> str:
    """A file that was built for the package: beside this one, or in a checkout in its dist/ for the processor of this machine."""
    here = os.path.dirname(os.path.realpath(__file__))
    own = os.path.join(here, name)
    top = os.path.dirname(os.path.dirname(os.path.dirname(here)))
    return own if os.path.isfile(own) else os.path.join(top, "dist", os.uname().machine, name)
