"""Reads the tables of targets/ beside this file: what each target knows, takes or rejects. Each is said there once, for the documents, the
packages and the tests.

A line that begins with `#` says what the columns are. Cells are between TABs, the first line has the names of the columns, and a cell with
`-` has nothing.
"""

from __future__ import annotations

import json
from pathlib import Path
from typing import Dict, Iterator, List, NamedTuple, Tuple

FOLDER = Path(__file__).resolve().parent / "targets"
TARGETS = ("rules", "prometheus-2.42", "prometheus-3")
Targets = Tuple[str, ...]


class Function(NamedTuple):
    """A function: the types of its arguments in order, a number that says how many arguments may be given, the type of its value; the
    targets that have it, those that take a number for its vector, and what is there for it where it is gone."""

    name: str
    arguments: Tuple[str, ...]
    variadic: int
    value: str
    is_experimental: bool
    targets: Targets
    numbers: Targets
    gone: str


class Keyword(NamedTuple):
    """A keyword: the targets for which it is one, and those that take it in a list of labels, and as the name of a metric."""

    word: str
    kind: str
    targets: Targets
    label: Targets
    metric: Targets


class Form(NamedTuple):
    """A form of queries: what each target does with it, how it is told, and the texts about it."""

    name: str
    verdicts: Dict[str, str]
    told: str
    text: str
    examples: Tuple[str, ...]
    shown: str
    instead: str


class Rejection(NamedTuple):
    """Patterns that Go rejects, with examples, and what the linter says of the first of them."""

    form: str
    examples: Tuple[str, ...]
    told: str


class Known(NamedTuple):
    """What Go knows in patterns: words, or letters where it is one word; and where they are."""

    name: str
    words: str
    place: str

    def split(self) -> List[str]:
        return self.words.split() if " " in self.words or self.words.isdigit() else list(self.words)


def rows_of(name: str) -> Iterator[Dict[str, str]]:
    """The rows of a table, each with its cells by the names of their columns."""
    lines = (FOLDER / f"{name}.tsv").read_text(encoding="utf-8").splitlines()
    head, *rows = [line.split("\t") for line in lines if not line.startswith("#")]
    for row in rows:
        if len(row) != len(head):
            raise ValueError(f"{name}.tsv: {len(row)} cells, and {len(head)} are wanted: {row}")
        yield {column: "" if cell == "-" else cell for column, cell in zip(head, row)}


def targets_in(cell: str) -> Targets:
    """The targets that a cell names."""
    found = TARGETS if cell == "all" else () if cell == "none" else tuple(cell.split())
    if not set(found) <= set(TARGETS):
        raise ValueError(f"no targets: {cell}")
    return found


def examples_in(cell: str) -> Tuple[str, ...]:
    return tuple(json.loads(cell) if cell.startswith("[") else cell.split(" ;; "))


def functions() -> List[Function]:
    """All functions, those that no target has among them."""
    return [
        Function(
            it["name"], () if it["arguments"] == "none" else tuple(it["arguments"].split()), int(it["variadic"]), it["value"],
            it["experimental"] == "yes", targets_in(it["targets"]), targets_in(it["takes a number"]), it["gone"],
        )
        for it in rows_of("functions")
    ]


def functions_of(target: str) -> List[Function]:
    return [it for it in functions() if target in it.targets]


def keywords() -> List[Keyword]:
    columns = ("targets", "label", "metric")
    return [Keyword(it["word"], it["kind"], *(targets_in(it[column]) for column in columns)) for it in rows_of("keywords")]


def forms(*told: str) -> List[Form]:
    """The forms that are told so."""
    found = (it for it in rows_of("forms") if it["told"] in told)
    return [
        Form(
            it["form"], {target: it[target] for target in TARGETS}, it["told"], it["text"], examples_in(it["examples"]), it["shown"],
            it["instead"],
        )
        for it in found
    ]


def rejections() -> List[Rejection]:
    return [Rejection(it["what"], tuple(it["texts"].split()), it["told"]) for it in rows_of("patterns") if it["kind"] == "rejected"]


def known() -> Dict[str, Known]:
    return {it["what"]: Known(it["what"], it["texts"], it["told"]) for it in rows_of("patterns") if it["kind"] == "known"}
