#!/usr/bin/env python3
"""Compares where Prometheus's own parser finds the error of each rejected query of rows/*.tsv. README.md says how.

usage: bench/places/prometheus.py [--all]    where both reject for one reason, the place is the same but for the reasons of ELSEWHERE: prints
                                             one of each of these that is elsewhere, or --all, and how many there are

It needs Debian's `prometheus`, starts one on 127.0.0.1, and ends it.
"""

import collections
import json
import os
import re
import sys
import tempfile
import urllib.parse
from pathlib import Path
from typing import Iterator

ROOT = Path(__file__).resolve().parents[2]
sys.path[:0] = [str(ROOT / "bench" / "meaning"), str(ROOT / "bin")]
from checks import Checks  # noqa: E402
from compare import Prometheus, Series  # noqa: E402
from oracle import rejected_rows  # noqa: E402

PLACE = re.compile(r"(\d+):(\d+): parse error: (.*)", re.DOTALL)
# A longer query is no argument of a request.
LONGEST = 4000
# How messages of one reason begin here and there, where they do not begin alike.
REASONS = {
    "invalid promql query": "unexpected ",
    "illegal regex": "error parsing regexp",
}
# Reasons whose place is another one here: docs/DIFFERENCES.md, "Places of errors".
ELSEWHERE = (
    *("comparisons between", "bool modifier", "label ", "no grouping", "vector matching", "set operator", "unary expression", "offset modifier"),
    *("@ modifier", "offset may", "@ <timestamp> may", "timestamp out of bounds", "illegal regex", "unexpected character", "unknown escape"),
    *("escape sequence", "no expression found", "unexpected right parenthesis"),
)

# What Prometheus 2.42 does not have: `or` between matchers, strings for labels, modes of ranges, and `atan2` for a name.
NOT_THERE = re.compile(r"\{[^}]*\bor\b|in grouping opts|<op:atan2>|identifier \"(smoothed|anchored)\"", re.IGNORECASE)


def is_same_reason(here: str, there: str) -> bool:
    """Whether both messages are of one reason: they begin alike, or as REASONS says."""
    for mine, other in REASONS.items():
        if here.startswith(mine):
            return there.startswith(other) and not there.startswith(("unexpected character", "unexpected right"))
    words = re.findall(r"[a-z@]+", here.lower())[:3]
    return re.findall(r"[a-z@]+", there.lower())[:3] == words


def line_and_column(query: bytes, place: str) -> tuple[int, int]:
    """The line and the column where the place of a row begins, both from 1, in bytes as Prometheus counts them."""
    at = len(query) if place == "end" else int(place.split("-")[0])
    return query.count(b"\n", 0, at) + 1, at - (query.rfind(b"\n", 0, at) + 1) + 1


def error_of(server: Prometheus, query: bytes) -> str | None:
    """Why the server rejects the query, None where it takes it."""
    status, body = server.get("/api/v1/format_query?" + urllib.parse.urlencode({"query": query}))
    return None if status == 200 else str(json.loads(body)["error"])


def answers(server: Prometheus) -> Iterator[tuple[str, str, str | None, tuple[int, int]]]:
    """Of each row that has a place its query, its message, the server's error and its place."""
    for _, _, columns, query, message in rejected_rows():
        if len(query) <= LONGEST and len(columns) >= 5:
            yield query.decode(errors="replace"), message, error_of(server, query), line_and_column(query, columns[4])


def main(words: list[str]) -> int:
    if words not in ([], ["--all"]):
        sys.exit(__doc__)
    checks, counts, shown = Checks(), collections.Counter[str](), set[str]()
    with tempfile.TemporaryDirectory() as folder:
        server = Prometheus(Path(folder, "store"), [Series("up", {}, [1.0])])
        try:
            for query, message, error, here in answers(server):
                found = PLACE.search(error) if error else None
                if not found or NOT_THERE.search(query + found[3]) or not is_same_reason(message, found[3]):
                    counts["for another reason" if error else "taken by Prometheus"] += 1
                    continue
                there = int(found[1]), int(found[2])
                told = f"{query[:100]!r}: {there[0]}:{there[1]} {found[3][:80]!r}, here {here[0]}:{here[1]} {message[:80]!r}"
                kind = next((it for it in ELSEWHERE if message.startswith(it)), None)
                counts["alike" if there == here else "elsewhere"] += 1
                if kind is None:
                    checks.check(there == here, told)
                elif there != here and (words or kind not in shown):
                    shown.add(kind)
                    print(told)
        finally:
            server.end()
    print(", ".join(f"{count} {name}" for name, count in counts.items()))
    return checks.end()


if __name__ == "__main__":
    os.environ.pop("http_proxy", None)
    sys.exit(main(sys.argv[1:]))
