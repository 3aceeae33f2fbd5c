#!/usr/bin/env python3
"""generate.py FOLDER [FILES]: writes so many rule files (1,000) of some 3,500 bytes each into a new folder: README.md.

The queries are those of bench/queries, in the styles that people write them in. The same files come out in each run.
"""

from __future__ import annotations

import argparse
import random
from pathlib import Path
from typing import Iterator

QUERIES = Path(__file__).resolve().parent.parent / "queries" / "queries.txt"
SEVERITIES = ("critical", "warning", "info")
NAMES = ("shop", "billing", "gateway", "storage", "search", "mail")
ANNOTATIONS = (
    'summary: "{{ $labels.instance }} has been wrong for a while (now: {{ $value | humanize }})"',
    "description: The job {{ $labels.job }} of {{ $labels.namespace }} does not do what it should.",
    "action: |\n            Look at the log of {{ $labels.instance }} first,\n            then at the page of the team.",
    "runbook_url: https://runbooks.example.com/{{ $labels.job }}",
)


# What Prometheus 2.42 does not read yet.
LATER = ("fill", '{"')


def queries() -> list[str]:
    """Those that promtool takes, without comments."""
    lines = QUERIES.read_text(encoding="utf-8").splitlines()
    return [line for line in lines if "#" not in line and not any(form in line for form in LATER)]


def written(generator: random.Random, query: str) -> str:
    """The query as a scalar of YAML: a block, in quotes, or plain where it can be."""
    style = generator.random()
    if style < 0.35:
        return "|\n          " + query.replace(" / ", "\n            /\n          ")
    if style < 0.6 and query[0].isalpha() and ": " not in query:
        return query
    return "'" + query.replace("'", "''") + "'"


def group(generator: random.Random, number: int, choices: list[str]) -> Iterator[str]:
    name = generator.choice(NAMES)
    yield f"  - name: {name}-{number}   # of the team {name}"
    yield f"    interval: {generator.choice(('30s', '1m', '5m'))}"
    yield "    rules:"
    for rule in range(generator.randrange(2, 6)):
        query = generator.choice(choices)
        if generator.random() < 0.4:
            yield f"      - record: {name}:r{number}_{rule}:sum"
            yield f"        expr: {written(generator, query)}"
        else:
            yield f"      - alert: {name.title()}Wrong{number}{rule}"
            yield f"        expr: {written(generator, query)}"
            yield f"        for: {generator.choice(('1m', '5m', '1h'))}"
            yield f"        labels:\n          severity: {generator.choice(SEVERITIES)}"
            yield "        annotations:"
            yield from (f"          {text}" for text in generator.sample(ANNOTATIONS, 2))
        yield ""


def rule_file(generator: random.Random, choices: list[str]) -> str:
    groups = (line for number in range(3) for line in group(generator, number, choices))
    return "\n".join(["# Made by bench/rules.", "groups:", *groups]) + "\n"


def main() -> None:
    parser = argparse.ArgumentParser(description="Writes rule files of some 3,500 bytes each into a new folder.")
    parser.add_argument("folder", metavar="FOLDER", type=Path)
    parser.add_argument("count", metavar="FILES", type=int, nargs="?", default=1_000)
    arguments = parser.parse_args()
    generator, choices = random.Random(1), queries()
    arguments.folder.mkdir(parents=True)
    for number in range(arguments.count):
        (arguments.folder / f"rules{number:04}.yml").write_text(rule_file(generator, choices), encoding="utf-8")


if __name__ == "__main__":
    main()
