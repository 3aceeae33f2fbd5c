#!/usr/bin/env python3
"""Holds the tables of bindings/schema/targets against a Prometheus 2.42, row by row: bench/targets/README.md.

usage: bench/targets/table_rows.py
"""

from __future__ import annotations

import contextlib
import itertools
import json
import os
import pathlib
import sys
import tempfile
from typing import Iterator, List, NamedTuple, Optional, Sequence

from verdicts import Asked
import compare
import tables
from checks import Checks

SERVER = "prometheus-2.42"
VALUES = {"vector": "a", "matrix": "a[5m]", "scalar": "1", "string": '"b"'}
PARAMETERS = {**dict.fromkeys(("bottomk", "limit_ratio", "limitk", "quantile", "topk"), "1, "), "count_values": '"c", '}
# What is known of patterns, each as a pattern that has one of its names.
PATTERNS = {
    **dict.fromkeys(("characters", "classes", "assertions"), "\\%s"),
    **{"flags": "(?%s:a)", "posix": "[[:%s:]]", "categories": "\\p{%s}", "scripts": "\\P{%s}"},
}


class Expected(NamedTuple):
    """A query, and whether the server takes it by the tables; and what it is for."""

    query: str
    is_taken: bool
    what: str


def fits(function: tables.Function, types: Sequence[str]) -> bool:
    """Whether a function takes arguments of these types: docs/reference/functions.md, "Looking up"."""
    count, variadic = len(function.arguments), function.variadic
    least = count if variadic == 0 else max(count - 1, 0)
    if len(types) < least or variadic >= 0 and len(types) > least + variadic:
        return False
    return all(it == wanted for it, wanted in zip(types, [*function.arguments, *function.arguments[-1:] * len(types)]))


def lists_of_types(function: tables.Function) -> Iterator[List[str]]:
    """The arguments of a function, fewer and more of them, and each of another type."""
    last = function.arguments[-1] if function.arguments else "vector"
    for count in range(len(function.arguments) + 4):
        right = [*function.arguments, last, last, last, last][:count]
        yield right
        for at, other in itertools.product(range(count), VALUES):
            yield [*right[:at], other, *right[at + 1 :]]


def of_functions() -> Iterator[Expected]:
    for function in tables.functions():
        for types in lists_of_types(function):
            query = f"{function.name}({', '.join(VALUES[it] for it in types)})"
            yield Expected(query, SERVER in function.targets and fits(function, types), "function")
        if function.arguments == ("vector",) and SERVER in function.targets:
            yield Expected(f"{function.name}(Inf)", SERVER in function.numbers, "function of a number")


def of_keywords() -> Iterator[Expected]:
    for keyword in tables.keywords():
        for word in (keyword.word, keyword.word.upper()):
            yield Expected(f"sum by ({word}) (a)", SERVER in keyword.label, "label")
            yield Expected(f"a + on ({word}) b", SERVER in keyword.label, "label")
            yield Expected(f"a + {word}", SERVER in keyword.metric or keyword.kind == "number", "metric")
            if keyword.kind == "aggregator":
                yield Expected(f"{word} by (b) ({PARAMETERS.get(keyword.word, '')}a)", SERVER in keyword.targets, "aggregation")


def of_forms() -> Iterator[Expected]:
    for form in tables.forms("refusal", "nothing", "error", "hint"):
        for query in form.examples:
            yield Expected(query, form.verdicts[SERVER] == "takes", form.name)


def matcher(pattern: str) -> str:
    return f"a{{b=~{json.dumps(pattern, ensure_ascii=False)}}}"


def of_patterns() -> Iterator[Expected]:
    for rejection in tables.rejections():
        for pattern in rejection.examples:
            yield Expected(matcher(pattern), False, rejection.form)
    known = tables.known()
    for name, form in PATTERNS.items():
        for word in known[name].split():
            yield Expected(matcher(form % word), True, name)
    most = int(known["most"].words)
    for count in (most, most + 1):
        yield Expected(matcher(f"c{{{count}}}"), count <= most, "most")
    letters = [chr(code) for code in range(ord("A"), ord("z") + 1) if chr(code).isalpha()]
    escapes = {letter for name in ("characters", "classes", "assertions") for letter in known[name].split()}
    for letter in letters:
        yield Expected(matcher(f"(?{letter})c"), letter in known["flags"].split(), "flag")
        # (a character by its number, a class by its name and a quoted text have more than a letter)
        if letter not in "xpPQ":
            yield Expected(matcher(f"\\{letter}"), letter in escapes, "escape")
    for word in [*known["scripts"].split(), *known["posix"].split()]:
        yield Expected(matcher(f"\\p{{{word.swapcase()}}}"), False, "script in another case")


def main() -> int:
    checks = Checks(60)
    with tempfile.TemporaryDirectory() as folder, contextlib.ExitStack() as stack:
        server = compare.Prometheus(pathlib.Path(folder, "store"), [compare.Series("up", {}, [1.0])])
        stack.callback(server.end)
        asked = Asked(server)
        for expected in itertools.chain(of_functions(), of_keywords(), of_forms(), of_patterns()):
            found: Optional[str] = asked.error(expected.query)
            checks.check((found is None) == expected.is_taken, f"{expected.what}: {expected.query}: {found}")
    return checks.end()


if __name__ == "__main__":
    os.environ.pop("http_proxy", None)
    sys.exit(main())
