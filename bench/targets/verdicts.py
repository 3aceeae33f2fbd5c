#!/usr/bin/env python3
"""Finds which queries a Prometheus accepts and the library rejects, or the other way round, and why: bench/targets/README.md.

usage: bench/targets/verdicts.py [--count COUNT] [--seed SEED] [--queries FILE]
"""

from __future__ import annotations

import argparse
import collections
import contextlib
import http.client
import json
import os
import pathlib
import re
import sys
import tempfile
import urllib.parse
from fractions import Fraction
from typing import Any, Callable, Counter, DefaultDict, Dict, Iterator, List, NamedTuple, Optional, Sequence, Tuple

from changed import LONGEST_CHANGED, queries_of
import compare
import promql
import tables
from checks import Checks
from classes import ESCAPE, classes_of, ends_operand, is_byte_escape, nodes_of
from examples import lines_of
from promql.lint import go_patterns
from promql.lint.patterns import SPACED_COUNT
from promql.token_texts import MATCHER_SIGNS, Token, code_of

NO_LIMIT = 2**64 - 1
MOST_NANOSECONDS = 2**63 - 1
# The least number that is rounded to more than the greatest double.
PAST_DOUBLES = 2**1024 - 2**970
LISTS = ("by", "without", "on", "ignoring", "group_left", "group_right")
# The functions of the library that Prometheus 2.42 does not have.
LATER = frozenset(it.name for it in tables.functions_of("rules") if "prometheus-2.42" not in it.targets)


# ---- a query as rules see it


class Query:
    """A query with its tokens, each with the area that it is in: braces, brackets, a list of labels, or none."""

    def __init__(self, text: str) -> None:
        self.text = text
        self.code = code_of(text)
        self.areas = list(areas(self.code))
        self._nodes: Optional[List[Dict[str, Any]]] = None

    def tokens(self, area: str, kind: str = "") -> Iterator[Tuple[int, Token]]:
        """The tokens of an area, of one kind or of all, each with its number."""
        for at, token in enumerate(self.code):
            if self.areas[at] == area and kind in ("", token.kind):
                yield at, token

    def before(self, at: int) -> str:
        return self.code[at - 1].lower if at > 0 else ""

    def after(self, at: int) -> str:
        return self.code[at + 1].lower if at + 1 < len(self.code) else ""

    @property
    def blank(self) -> str:
        """The text without its tokens and comments."""
        at, parts = 0, []
        for token in promql.tokens(self.text):
            parts.append(self.text[at : token.start])
            at = token.end
        return "".join(parts) + self.text[at:]

    @property
    def nodes(self) -> List[Dict[str, Any]]:
        """The nodes of the tree with their places; none where it has no JSON form."""
        if self._nodes is None:
            self._nodes = []
            with contextlib.suppress(promql.NumberTooWideError, RecursionError):
                self._nodes = list(nodes_of(promql.parse(self.text, places=True)))
        return self._nodes


def areas(code: Sequence[Token]) -> Iterator[str]:
    """The area of each token: that of what opens or closes it is the one around it."""
    area = ""
    for at, token in enumerate(code):
        if area and token.text == {"{": "}", "[": "]", "(": ")"}[area]:
            area = ""
        yield area
        if not area and (token.text in ("{", "[") or token.text == "(" and opens_list(code, at)):
            area = token.text


def opens_list(code: Sequence[Token], at: int) -> bool:
    return at > 0 and code[at - 1].kind == "keyword" and code[at - 1].lower in LISTS


def exact(number: str) -> Optional[Fraction]:
    """The value of a number or of the seconds of a duration, exactly; nothing where it is not finite."""
    text = promql.canonical(number)
    return None if text.lstrip("-") in ("Inf", "NaN") else Fraction(text)


# ---- what the library accepts, and Prometheus 2.42 rejects


def has_form_feed(query: Query) -> bool:
    return "\f" in query.blank


def has_or_groups(query: Query) -> bool:
    return any(token.kind == "operator" and token.lower == "or" for _, token in query.tokens("{"))


def has_quoted_name(query: Query) -> bool:
    in_braces = any(query.before(at) not in MATCHER_SIGNS for at, _ in query.tokens("{", "string"))
    return in_braces or any(True for _ in query.tokens("(", "string"))


def has_fill(query: Query) -> bool:
    return any(token.lower in ("fill", "fill_left", "fill_right") for _, token in query.tokens("", "keyword"))


def has_mode(query: Query) -> bool:
    found = (at for at, token in query.tokens("", "keyword") if token.lower in ("smoothed", "anchored"))
    return any(at > 0 and ends_operand(query.code, at - 1) for at in found)


def is_offset(query: Query, at: int) -> bool:
    """Whether the token at this place is the word of an offset."""
    return query.areas[at] == "" and query.code[at].lower == "offset" and at > 0 and ends_operand(query.code, at - 1)


def is_time(query: Query, at: int) -> bool:
    """Whether the token at this place is a length of time."""
    if query.areas[at] == "[":
        return True
    at -= 2 if query.before(at) in ("+", "-") else 1
    return at > 0 and is_offset(query, at)


def has_number_for_time(query: Query) -> bool:
    return any(token.kind == "number" and is_time(query, at) for at, token in enumerate(query.code))


def has_duration_for_number(query: Query) -> bool:
    return any(token.kind == "duration" and not is_time(query, at) for at, token in enumerate(query.code))


def has_long_duration(query: Query) -> bool:
    found = (token for token in query.code if token.kind == "duration")
    return any((exact(token.text) or 0) * 10**9 > MOST_NANOSECONDS for token in found)


def has_plus_after_offset(query: Query) -> bool:
    return any(is_offset(query, at) and query.after(at) == "+" for at in range(len(query.code)))


def calls(query: Query) -> Iterator[Tuple[int, Token]]:
    """The names of calls, but not those after `@`."""
    for at, token in query.tokens(""):
        if token.kind in ("name", "keyword") and query.after(at) == "(" and query.before(at) != "@" and token.lower not in LISTS:
            yield at, token


def has_later_function(query: Query) -> bool:
    return any(token.text in LATER for _, token in calls(query))


def has_later_aggregator(query: Query) -> bool:
    found = (at for at, token in query.tokens("", "aggregator") if token.lower in ("limitk", "limit_ratio"))
    return any(query.after(at) in ("(", "by", "without") for at in found)


def has_plus_before_value(query: Query) -> bool:
    for node in query.nodes:
        inner = node
        while inner["type"] == "parenExpr":
            inner = inner["expr"]
        if inner["type"] in ("stringLiteral", "matrixSelector", "subquery") and query.text[node["start"]] == "+":
            return True
    return False


def has_large_number(query: Query) -> bool:
    numbers = (exact(token.text) for at, token in enumerate(query.code) if token.kind == "number" and not is_time(query, at))
    return any(it is not None and it >= PAST_DOUBLES for it in numbers)


def has_replacement_character(query: Query) -> bool:
    return any("\ufffd" in token.text for token in query.code if token.kind == "string")


def has_bare_atan2(query: Query) -> bool:
    found = (at for at, token in query.tokens("") if token.lower == "atan2")
    return any(at == 0 or not ends_operand(query.code, at - 1) for at in found)


def has_label_without(query: Query) -> bool:
    return any(token.lower == "without" for _, token in query.tokens("("))


def has_bare_literal(query: Query) -> bool:
    """A call of a logarithm or of `exp` has a number for its vector."""
    found = (node for node in query.nodes if node["type"] == "call" and node["func"]["name"] in ("exp", "ln", "log2", "log10"))
    return any(node["args"][0]["type"] == "numberLiteral" for node in found)


def patterns(query: Query) -> Iterator[Tuple[str, str]]:
    """The patterns, each as its token and as the text that it means."""
    for at, token in query.tokens("{", "string"):
        if query.before(at) in ("=~", "!~"):
            yield token.text, str(promql.parse(token.text)["val"])


def has_pattern_of_rust(query: Query) -> bool:
    return any(go_patterns.why_rejected(value) for _, value in patterns(query))


def has_pattern_of_bytes(query: Query) -> bool:
    """A pattern has bytes by its escapes that are no UTF-8."""
    for text, _ in patterns(query):
        try:
            bytes_of(text).decode()
        except UnicodeDecodeError:
            return True
    return False


def bytes_of(text: str) -> bytes:
    """The bytes that a string is to Prometheus."""
    quote, parts, at = text[0], [], 1
    for escape in ESCAPE.finditer(text) if quote != "`" else ():
        if is_byte_escape(escape[1]):
            parts += [str(promql.parse(quote + text[at : escape.start()] + quote)["val"]).encode(), bytes([byte_of(escape[1])])]
            at = escape.end()
    return b"".join([*parts, str(promql.parse(quote + text[at:])["val"]).encode()])


def byte_of(escape: str) -> int:
    return int(escape[1:], 16) if escape[0] == "x" else int(escape, 8)


def takes_nothing_there(matcher: Dict[str, Any]) -> bool:
    """Whether a matcher takes the empty text where counts that Go does not know are text."""
    value = matcher["value"]
    if matcher["type"] in ("=", "!="):
        is_empty = not value
    else:
        with contextlib.suppress(re.error):
            value = re.compile(SPACED_COUNT.sub(lambda count: re.escape(count[0]), value))
        is_empty = isinstance(value, re.Pattern) and value.fullmatch("") is not None
    return is_empty == (matcher["type"] in ("=", "=~"))


def has_pattern_of_nothing_there(query: Query) -> bool:
    """A selector without a name has a count that Go does not know, and with that as text each of its matchers takes the empty text."""
    for node in query.nodes:
        matchers = node["matchers"] if node["type"] == "vectorSelector" and node["name"] is None else []
        has_count = any(SPACED_COUNT.search(it["value"]) for it in matchers if it["type"] in ("=~", "!~"))
        if has_count and all(map(takes_nothing_there, matchers)):
            return True
    return False


HERE: Dict[str, Callable[[Query], bool]] = {
    "form feed": has_form_feed,
    "or between matchers": has_or_groups,
    "quoted name": has_quoted_name,
    "fill": has_fill,
    "mode of a range": has_mode,
    "number for a time": has_number_for_time,
    "duration for a number": has_duration_for_number,
    "duration over 292 years": has_long_duration,
    "plus after offset": has_plus_after_offset,
    "later function": has_later_function,
    "later aggregator": has_later_aggregator,
    "plus before a string or a range": has_plus_before_value,
    "number past a double": has_large_number,
    "U+FFFD in a string": has_replacement_character,
    "atan2 as a metric": has_bare_atan2,
    "without as a label": has_label_without,
    "number for the vector of a logarithm": has_bare_literal,
    "pattern that Go rejects": has_pattern_of_rust,
    "bytes of a pattern": has_pattern_of_bytes,
    "pattern that matches nothing there": has_pattern_of_nothing_there,
}


# The kinds of which the library does not tell that this server rejects them, or not of all.
NOT_TOLD = frozenset(
    (
        "form feed",
        "plus before a string or a range",
        "number past a double",
        "pattern that Go rejects",
        "bytes of a pattern",
        "pattern that matches nothing there",
    )
)


# ---- what Prometheus 2.42 accepts, and the library rejects


class Rejected(NamedTuple):
    """A query that the library rejects, why, and the text at the place of the error."""

    query: str
    reason: str
    part: str

    def fits(self, reason: str, part: str = ".*") -> bool:
        """Whether the reason begins so, and the text at the place is one of this pattern."""
        return self.reason.startswith(reason) and re.fullmatch(part, self.part, re.DOTALL | re.IGNORECASE) is not None


THERE: Dict[str, Callable[[Rejected], bool]] = {
    "more than 38 digits": lambda it: it.fits("more than 38 significant digits"),
    "octal past 63 bits": lambda it: it.fits("number out of range", "0[0-7]+"),
    "number below a double": lambda it: it.fits("number out of range", r"[0-9]*\.[0-9]*(e.*)?|[0-9]+e-.*"),
    "octal with an exponent": lambda it: it.fits("not a number", "0[0-7]*e[-+]?[0-7]+"),
    "time past 64 bits": lambda it: it.fits("timestamp out of bounds"),
    "or as a label before a space": lambda it: it.fits("invalid promql query", "or"),
    "comment in brackets": lambda it: it.fits("unexpected character inside brackets", "#"),
    "letter for a colon": lambda it: it.fits("unexpected character inside brackets", "[a-z_]"),
    "more than 512 levels": lambda it: it.fits("expression nested too deeply"),
    "holt_winters": lambda it: it.fits("unknown function", "holt_winters"),
    "start or end before a range": lambda it: it.fits("no @ modifiers allowed before range"),
    "pattern that Rust rejects": lambda it: it.fits("illegal regex"),
    "pattern that matches nothing here": lambda it: it.fits("vector selector must contain at least one non-empty matcher"),
}


# ---- examples: of each kind, and beside it

EXAMPLES = r"""
    a{b="c" or d="e"}
    {"a b"="c"}
    {"up"}
    sum by ("a b") (c)
    a + on ("b") c
    a + fill (1) b
    a[5m] smoothed
    rate(a[5m] anchored)
    a[300]
    a offset 300
    a[5m:60]
    5m
    a > 1h30m
    a[293y]
    a offset 106752d
    a[106751d23h47m16s854ms]
    a[106751d23h47m16s855ms]
    a offset +5m
    a offset -5m
    step()
    max_of(1, 2)
    info(a)
    double_exponential_smoothing(a[5m], 0.5, 0.5)
    limitk(1, a)
    limit_ratio by (b) (0.5, a)
    limitk
    +"a"
    label_replace(a, +"b", "c", "d", "e")
    +a[5m]
    rate(+(a[5m]))
    rate(+a[5m:1m])
    1e309
    17976931348623158e292
    17976931348623159e292
    "\ufffd"
    "�"
    atan2
    a + atan2
    a atan2 b
    a atan2 atan2
    sum by (atan2) (b)
    sum by (without) (a)
    exp(Inf)
    ln(-1)
    log2(0)
    a{b=~"c**"}
    a{b=~"(?x)c"}
    a{b=~"c{1001}"}
    a{b=~"\xff"}
    a{b=~"\xc3\xa9"}
    a{b=~"\xc3"}
    1234567890123456789012345678901234567890
    0777777777777777777777777
    1e-400
    0e5
    07e1
    a @ 1e16
    {or ="a"}
    {or="a"}
    a[5m # c
    a[5m x]
    holt_winters(a[5m], 0.5, 0.5)
    sum(holt_winters(a[5m], 0.5, 0.5)) by (b)
    a @ start()[5m]
    a @ end() [5m]
    a{b=~"(?P<n>c)(?P<n>d)"}
    a{b=~"\Qc\E"}
    a{b=~"\07"}
    {a=~"b{ 0 }"}
    {a!~"b{00}"}
    {a!~"b{00}",c="d"}
    {a!~"b{0}"}
"""
EXAMPLES_OF_LINES = ("a[5m # c\n]", "a[5m:# c\n1m]", "a\f+ b", "sum by (a\f) (b)", "a{\fb='c'}", "a # \f\n")


# ---- verdicts


class Asked:
    """What a Prometheus says of queries. `query_exemplars` reads them, and does nothing more: `format_query` takes long for deep ones."""

    def __init__(self, server: compare.Prometheus) -> None:
        self._connection = http.client.HTTPConnection("127.0.0.1", server.port, timeout=60)

    def error(self, query: str, path: str = "query_exemplars") -> Optional[str]:
        """Why the server rejects the query, None where it takes it."""
        words = urllib.parse.urlencode({"query": query, "start": "1", "end": "2", "time": "5"})
        self._connection.request("POST", f"/api/v1/{path}", words, {"Content-Type": "application/x-www-form-urlencoded"})
        response = self._connection.getresponse()
        body = response.read()
        error = str(json.loads(body)["error"]) if response.status >= 400 else None
        return error if error and (path == "query_exemplars" or "parse error" in error) else None


def rejected(query: str) -> Optional[Rejected]:
    """Why the library rejects the query, None where it accepts it."""
    try:
        promql.check(query)
    except promql.QueryError as error:
        return Rejected(query, error.reason, query[error.start : error.end])
    return None


def is_told(query: str) -> Optional[bool]:
    """Whether the library says that Prometheus 2.42 rejects a query that its rules accept; None where it says that it is read otherwise."""
    promql.set_target("prometheus-2.42")
    try:
        promql.check(query)
    except promql.RefusedError:
        return True
    except promql.ReadOtherwiseError:
        return None
    finally:
        promql.set_target("rules")
    return False


class Comparison:
    """Compares verdicts, and counts those that differ by their kinds."""

    def __init__(self, asked: Asked) -> None:
        self._asked = asked
        self.checks = Checks(60)
        self.counts: Counter[str] = collections.Counter()
        self.kinds: DefaultDict[str, List[str]] = collections.defaultdict(list)

    def look_at(self, query: str) -> None:
        here, there = rejected(query), self._asked.error(query)
        self.counts["queries"] += 1
        self.counts[f"{'rejected' if here else 'accepted'} here, {'rejected' if there else 'accepted'} there"] += 1
        if here is None:
            tokens = Query(query)
            found = [name for name, is_of in HERE.items() if is_of(tokens)]
            self.checks.check(bool(found) == bool(there), f"accepted here: {query!r} {found} {there}")
            self._look_at_refusal(query, found, there)
            if there is None:
                self._look_at_line(query)
        else:
            found = [name for name, is_of in THERE.items() if is_of(here)] if there is None else []
            self.checks.check(bool(found) or there is not None, f"accepted there: {query!r} {here.reason} {here.part!r}")
        for name in found:
            self.kinds[name].append(query)

    def _look_at_refusal(self, query: str, kinds: Sequence[str], there: Optional[str]) -> None:
        """Whether the library tells what the server rejects, and nothing else."""
        told = is_told(query)
        self.counts[{None: "read otherwise", False: "not told", True: "told"}[told]] += 1
        if told is not None:
            self.checks.check(not told or bool(there), f"told, and accepted there: {query!r}")
            self.checks.check(told or NOT_TOLD.issuperset(kinds), f"not told: {query!r} {kinds}")

    def _look_at_line(self, query: str) -> None:
        """Whether the server takes what is printed, too. (An escape of U+FFFD prints as the character itself.)"""
        error = self._asked.error(promql.canonical(query))
        self.checks.check(error is None or "escape of U+FFFD" in classes_of(query), f"printed: {query!r} {error}")

    def check_paths(self, query: str) -> None:
        """Whether other paths of the server have the same verdict."""
        verdicts = {path: self._asked.error(query, path) is None for path in ("query_exemplars", "query", "format_query")}
        self.checks.check(len(set(verdicts.values())) == 1, f"paths: {query!r} {verdicts}")

    def print_kinds(self) -> None:
        for side, names in (("here", list(HERE)), ("there", list(THERE))):
            for name in names:
                shortest = min(self.kinds[name], key=len, default="")
                print(f"{side}\t{name}\t{len(self.kinds[name])}\t{shortest!r:.100}")


def main() -> int:
    parser = argparse.ArgumentParser(description=__doc__)
    parser.add_argument("--count", type=int, default=20_000, help="how many queries are compared (%(default)s)")
    parser.add_argument("--queries", help="a file of more queries, one a line")
    parser.add_argument("--seed", type=int, default=1)
    arguments = parser.parse_args()
    promql.set_target("rules")
    promql.set_limits(max_len=NO_LIMIT, max_patterns=NO_LIMIT, max_output=NO_LIMIT)
    with tempfile.TemporaryDirectory() as folder, contextlib.ExitStack() as stack:
        server = compare.Prometheus(pathlib.Path(folder, "store"), [compare.Series("up", {}, [1.0])])
        stack.callback(server.end)
        comparison = Comparison(Asked(server))
        examples = [*lines_of(EXAMPLES), *EXAMPLES_OF_LINES]
        for number, query in enumerate(queries_of(arguments.count, arguments.seed, examples, arguments.queries)):
            comparison.look_at(query)
            if number % 20 == 0 and len(query) < LONGEST_CHANGED:
                comparison.check_paths(query)
    print(", ".join(f"{name} {count}" for name, count in comparison.counts.items()))
    comparison.print_kinds()
    return comparison.checks.end()


if __name__ == "__main__":
    os.environ.pop("http_proxy", None)
    sys.exit(main())
