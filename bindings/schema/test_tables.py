#!/usr/bin/env python3
"""Tests what the tables of targets/ say, by the library of dist/ and by the linter for Python:

- a call of each function is accepted for exactly the targets that have it;
- each keyword is a label and the name of a metric for exactly the targets that take it so;
- each example of a form is accepted or rejected for each target, and told, as its row says;
- the linter says what its row says of the first pattern that Go rejects, and something of the others, and the library reads them all.

usage: bindings/schema/test_tables.py   with the package in PYTHONPATH. The last line is 'N passed, M failed'
"""

import json
import sys
from pathlib import Path
from typing import Iterator, Optional, Tuple

import tables

sys.path.insert(0, str(Path(__file__).resolve().parents[2] / "bin"))
import promql  # noqa: E402
from checks import Checks  # noqa: E402
from promql.lint import lint  # noqa: E402

ARGUMENTS = {"vector": "a", "matrix": "a[5m]", "scalar": "1", "string": '"b"'}
NO_LIMIT = 2**64 - 1
checks = Checks()


def error(query: str, target: str) -> Optional[promql.QueryError]:
    """Why a query is rejected that is checked for a target, or nothing."""
    promql.set_target(target)
    try:
        promql.check(query)
    except promql.QueryError as found:
        return found
    return None


def check_verdicts(query: str, takers: tables.Targets) -> None:
    """Whether a query is accepted for these targets alone."""
    for target in tables.TARGETS:
        found = error(query, target)
        checks.check((found is None) == (target in takers), f"{target}: {query}: {found}")


def queries() -> Iterator[Tuple[str, tables.Targets]]:
    """A query for each function and for each use of a keyword, with the targets that take it."""
    for function in tables.functions():
        arguments = ", ".join(ARGUMENTS[it] for it in function.arguments)
        # (the library does not read what a server alone has)
        takers = function.targets if "rules" in function.targets else ()
        yield f"{function.name}({arguments})", takers
        if function.arguments == ("vector",):
            yield f"{function.name}(Inf)", function.numbers
    for keyword in tables.keywords():
        yield f"sum by ({keyword.word}) (a)", keyword.label
        yield f"a + {keyword.word}", keyword.metric if keyword.kind != "number" else tables.TARGETS


def check_form(form: tables.Form, query: str) -> None:
    for target in tables.TARGETS:
        found = error(query, target)
        if form.verdicts["rules"] == "rejects":
            is_so = found is not None and found.reason.startswith(form.text) and ("Prometheus" in found.message) == (form.told == "hint")
        elif form.told == "nothing":
            is_so = not isinstance(found, promql.RefusedError)
        else:
            is_so = isinstance(found, promql.RefusedError) == (form.verdicts[target] == "rejects")
        checks.check(is_so, f"{form.name}, {target}: {query}: {found and found.message}")


def check_rejection(rejection: tables.Rejection) -> None:
    """(a matcher that needs a value is beside it, since some match the empty text)"""
    for pattern in rejection.examples:
        query = f"a{{b=~{json.dumps(pattern, ensure_ascii=False)},c='d'}}"
        checks.check(error(query, "rules") is None, f"the library rejects {query}")
        told = [it.message for it in lint(query, select=["P101"])]
        wanted = f"Prometheus rejects the pattern: {rejection.told}"
        checks.check(told == [wanted] if pattern == rejection.examples[0] else bool(told), f"the linter says of {query}: {told}")


def main() -> int:
    promql.set_limits(max_patterns=NO_LIMIT)
    for query, takers in queries():
        check_verdicts(query, takers)
    for form in tables.forms("refusal", "nothing", "error", "hint"):
        for query in form.examples:
            check_form(form, query)
    for rejection in tables.rejections():
        check_rejection(rejection)
    return checks.end()


if __name__ == "__main__":
    sys.exit(main())
