"""The tables of docs/reference/functions.md and docs/reference/targets.md, made of those of targets/."""

from __future__ import annotations

import re
from typing import Callable, Dict, Iterable, List, Sequence, Tuple

import tables
from tables import TARGETS, Form, Targets

SHOWN = {"rules": "these rules", "prometheus-2.42": "2.42", "prometheus-3": "3"}


def code(text: str) -> str:
    """A text as code, with more marks around it where it has one."""
    marks = "`" * (1 + max(map(len, re.findall("`+", text)), default=0))
    return f"{marks} {text} {marks}" if len(marks) > 1 else f"`{text}`"


def table(head: Sequence[str], rows: Iterable[Sequence[str]]) -> str:
    lines = [head, ["---"] * len(head), *rows]
    cells = [[cell.replace("|", "\\|") for cell in line] for line in lines]
    return "\n".join("|" + "|".join(line) + "|" if line[0] == "---" else f"| {' | '.join(line)} |".replace("|  |", "| |") for line in cells)


def grouped(rows: Iterable[Tuple[str, Tuple[str, ...]]]) -> List[Tuple[str, ...]]:
    """The rows with the same cells after the first as one, which has all their names."""
    names: Dict[Tuple[str, ...], List[str]] = {}
    for name, cells in rows:
        names.setdefault(cells, []).append(code(name))
    return [(" ".join(some), *cells) for cells, some in names.items()]


def marks(targets: Targets) -> Tuple[str, ...]:
    return tuple("yes" if target in targets else "no" for target in TARGETS)


def names_of(targets: Targets) -> str:
    """The targets that take something, in words."""
    others = [SHOWN[target] for target in TARGETS if target not in targets]
    return "taken by all" if not others else "rejected by all" if len(others) == len(TARGETS) else f"rejected by {' and '.join(others)}"


def functions() -> str:
    rows = [
        (it.name, (", ".join(it.arguments) or "none", str(it.variadic), it.value, "yes" if it.is_experimental else "no"))
        for it in tables.functions_of("rules")
    ]
    return table(("Names", "Arguments", "Variadic", "Value", "Experimental"), grouped(rows))


def functions_by_version() -> str:
    rows = [(it.name, (*marks(it.targets), it.gone)) for it in tables.functions() if it.targets != TARGETS]
    return table(("Names", "These rules", "Prometheus 2.42", "Prometheus 3", "What the linter says"), grouped(rows))


def keywords_by_version() -> str:
    rows = [
        (it.word, ("yes" if "prometheus-2.42" in it.targets else "no", names_of(it.label), names_of(it.metric))) for it in tables.keywords()
    ]
    return table(("Keywords", "Keyword in 2.42", "As a label in a list", "As the name of a metric"), grouped(rows))


def examples(form: Form) -> str:
    return form.shown or ", ".join(map(code, form.examples))


def refusals() -> str:
    head = ("Kind", "A query has it if", "Example", "Prometheus 3", "What to write for 2.42")
    verdicts = {"takes": "takes it", "rejects": "rejects it"}
    rows = [(code(it.name), it.text, examples(it), verdicts[it.verdicts["prometheus-3"]], it.instead) for it in tables.forms("refusal")]
    return table(head, rows)


def untold() -> str:
    return table(("Kind", "Example", "Why"), [(it.name, examples(it), it.text) for it in tables.forms("nothing")])


def taken() -> str:
    rows = [(it.name, code(it.text) + "*" * (it.told == "hint"), examples(it), it.instead) for it in tables.forms("error", "hint")]
    return table(("Kind", "Error", "Example", "What to write"), rows)


def rejected_patterns() -> str:
    rows = [(it.form, ", ".join(map(code, it.examples)), code(it.told)) for it in tables.rejections()]
    return table(("Where", "Examples", "What the linter says of the first"), rows)


def known_in_patterns() -> str:
    return table(("What", "Names"), [(it.place, " ".join(map(code, it.split()))) for it in tables.known().values()])


# Each by its name in the page.
TABLES: Dict[str, Callable[[], str]] = {
    "functions": functions,
    "functions by version": functions_by_version,
    "keywords by version": keywords_by_version,
    "refusals": refusals,
    "what is not told": untold,
    "what the server accepts": taken,
    "patterns that Go rejects": rejected_patterns,
    "what Go knows in patterns": known_in_patterns,
}
