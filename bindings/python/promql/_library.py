"""The calls of libpromql.so by ctypes, over bytes and over texts: promql.h says what each does, and _answers.py what they give. The extension
(_native.c) has the same."""

from __future__ import annotations

import ctypes
from contextlib import suppress
from functools import partial
from typing import Any, Callable, Iterable, List, Optional, Tuple

from ._answers import Answer, Failure, Lines, Mode, Status, library_path

# Most texts have fewer bytes than these and so many for each byte of the query, so that a call is made once. Of those for the query there
# are at most so many, so that one that is too large takes little more than itself.
FIRST_SIZE = 1024
MOST_ROOM = 16_777_216
# How much room a text of each mode has at first, for each byte of the query.
_ROOM = {Mode.LINE: 2, Mode.PRETTY: 4, Mode.JSON: 32, Mode.PLACED_JSON: 40}


class Result(ctypes.Structure):
    """`struct promql_result`."""

    _fields_ = [("status", ctypes.c_uint32), *((name, ctypes.c_size_t) for name in ("length", "start", "end", "line", "column"))]


class Times(ctypes.Structure):
    """`struct promql_times`."""

    _fields_ = [
        *((name, ctypes.c_int64) for name in ("start", "end")),
        *((name, ctypes.c_uint64) for name in ("step", "lookback", "default_step")),
        ("left_open", ctypes.c_uint32),
    ]


_QUERY = [ctypes.c_char_p, ctypes.c_size_t]
_BUFFER = [ctypes.c_char_p, ctypes.c_size_t, ctypes.POINTER(Result)]
_SIGNATURES = {
    **{
        f"promql_{name}": [*_QUERY, *_BUFFER]
        for name in ("canonical", "check", "collect", "differences", "is_constant", "parts", "places", "tokens")
    },
    **{f"promql_{name}": [*_QUERY, ctypes.POINTER(Times), *_BUFFER] for name in ("reaches", "windows")},
    "promql_last_read": [*_QUERY, ctypes.c_int64, ctypes.POINTER(Times), *_BUFFER],
    "promql_pinned": [*_QUERY, ctypes.c_int64, ctypes.c_int64, *_BUFFER],
    "promql_print": [*_QUERY, ctypes.c_uint32, ctypes.c_uint32, ctypes.c_size_t, *_BUFFER],
    **{f"promql_{name}": [*_QUERY, *_QUERY, *_BUFFER] for name in ("enforce", "may_read")},
    "promql_rename": [*_QUERY, ctypes.c_uint32, *_QUERY, *_QUERY, *_BUFFER],
    "promql_explain": [*_QUERY, ctypes.c_uint32, *_BUFFER],
    "promql_snippet": [*_QUERY, ctypes.c_size_t, ctypes.c_size_t, *_BUFFER],
    "promql_print_tree": [*_QUERY, ctypes.c_uint32, ctypes.c_uint32, ctypes.c_size_t, ctypes.c_uint32, *_BUFFER],
    "promql_format_query": [*_QUERY, ctypes.c_size_t, ctypes.c_size_t, ctypes.c_uint32, *_BUFFER],
    "promql_version": _BUFFER,
}


def load() -> ctypes.CDLL:
    try:
        library = ctypes.CDLL(library_path())
    except OSError as error:
        raise ImportError(f"the library of promql does not load: {error}") from None
    for name, arguments in _SIGNATURES.items():
        # (an older library has fewer)
        function = getattr(library, name, None)
        if function is not None:
            function.argtypes, function.restype = arguments, ctypes.c_uint32
    library.promql_set_limits.argtypes, library.promql_set_limits.restype = [ctypes.c_size_t, ctypes.c_size_t], None
    library.promql_set_target.argtypes, library.promql_set_target.restype = [ctypes.c_uint32], ctypes.c_uint32
    for set_bytes in (library.promql_set_max_output, library.promql_set_max_tree):
        set_bytes.argtypes, set_bytes.restype = [ctypes.c_size_t], None
    return library


_library = load()


def call(name: str, room: int, *arguments: Any) -> Tuple[bytes, Result]:
    """Makes a call with a buffer that is large enough, at first with this room, and returns the text and the result."""
    function, result, size = getattr(_library, name), Result(), FIRST_SIZE + min(room, MOST_ROOM)
    while True:
        buffer = ctypes.create_string_buffer(size)
        function(*arguments, buffer, size, ctypes.byref(result))
        if result.length <= size:
            return ctypes.string_at(buffer, result.length), result
        size = result.length


def print_query(query: bytes, mode: Mode, level: int = 0, width: int = 0) -> Tuple[bytes, Result]:
    return call("promql_print", _ROOM[mode] * len(query), query, len(query), mode, level, width)


# ---- the calls over texts, which raise TypeError where one is no str, UnicodeEncodeError where it has a surrogate, and MemoryError


def _encoded(text: str) -> bytes:
    if not isinstance(text, str):
        raise TypeError(f"expected a str, got {type(text)!r}")
    return str.encode(text)


def _answer(answer: Tuple[bytes, Result]) -> Answer:
    text, result = answer[0].decode(), answer[1]
    if result.status == Status.OK:
        return text
    return result.status, text, result.start, result.end, result.line, result.column


def _about(name: str, room: int, text: str, *arguments: Any) -> Answer:
    """Makes a call about a text, with so much room for each of its bytes."""
    encoded = _encoded(text)
    return _answer(call(name, room * len(encoded), encoded, len(encoded), *arguments))


def _about_both(name: str, room: int, query: str, other: str) -> Answer:
    encoded = _encoded(query), _encoded(other)
    return _about(name, room, query, encoded[1], len(encoded[1]))


def _at_times(name: str, query: str, *times: int) -> Answer:
    return _about(name, 4, query, ctypes.byref(Times(*times)))


def _printed(mode: Mode, query: str, *sizes: int) -> Answer:
    return _answer(print_query(_encoded(query), mode, *sizes))


# Those about a query alone, with another text, and with numbers beside it: a place, times, or how it is printed.
_AboutQuery = Callable[[str], Answer]
_WithTwo = Callable[[str, int, int], Answer]
canonical: _AboutQuery = partial(_about, "promql_canonical", 2)
check: _AboutQuery = partial(_about, "promql_check", 0)
collect: _AboutQuery = partial(_about, "promql_collect", 4)
differences: _AboutQuery = partial(_about, "promql_differences", 2)
enforce: Callable[[str, str], Answer] = partial(_about_both, "promql_enforce", 2)
format: _WithTwo = partial(_printed, Mode.PRETTY)
is_constant: _AboutQuery = partial(_about, "promql_is_constant", 0)
json: _AboutQuery = partial(_printed, Mode.JSON)
may_read: Callable[[str, str], Answer] = partial(_about_both, "promql_may_read", 0)
parts: _AboutQuery = partial(_about, "promql_parts", 8)
pinned: _WithTwo = partial(_about, "promql_pinned", 2)
placed_json: _AboutQuery = partial(_printed, Mode.PLACED_JSON)
places: _AboutQuery = partial(_about, "promql_places", 4)
reaches: Callable[..., Answer] = partial(_at_times, "promql_reaches")
snippet: _WithTwo = partial(_about, "promql_snippet", 2)
tokens: _AboutQuery = partial(_about, "promql_tokens", 16)
windows: Callable[..., Answer] = partial(_at_times, "promql_windows")
format_query: Callable[[str, int, int, int], Answer] = partial(_about, "promql_format_query", 4)
print_tree: Callable[[str, int, int, int, int], Answer] = partial(_about, "promql_print_tree", 1)


def canonical_many(queries: Iterable[str]) -> Lines:
    lines: List[Optional[str]] = []
    failures: List[Tuple[int, str, Optional[Failure]]] = []
    for query in queries:
        answer: Optional[Answer] = None
        with suppress(UnicodeEncodeError):
            answer = canonical(query)
        if not isinstance(answer, str):
            failures.append((len(lines), query, answer))
        lines.append(answer if isinstance(answer, str) else None)
    return lines, failures


def rename(query: str, kind: int, old: str, new: str) -> Answer:
    encoded = _encoded(query), _encoded(old), _encoded(new)
    return _about("promql_rename", 2, query, kind, encoded[1], len(encoded[1]), encoded[2], len(encoded[2]))


def last_read(query: str, time: int, *times: int) -> Answer:
    return _about("promql_last_read", 0, query, time, ctypes.byref(Times(*times)))


def explain(query: str) -> Answer:
    return _about("promql_explain", 2, query, 1)


def set_limits(max_len: int, max_pattern_size: int, max_output: int, max_tree: int) -> None:
    _library.promql_set_limits(max_len, max_pattern_size)
    _library.promql_set_max_output(max_output)
    _library.promql_set_max_tree(max_tree)


def set_target(number: int) -> None:
    if _library.promql_set_target(number) != Status.OK:
        raise ValueError(f"no target has the number {number}")


def version() -> Answer:
    return _answer(call("promql_version", 0))
