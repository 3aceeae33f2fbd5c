"""Compares the tables of targets/ with those of the crates, which are read as text. The crates are proved by their own, so where one of the
two is changed, the other has to be changed, too."""

from __future__ import annotations

import re
from pathlib import Path
from typing import Callable, Iterator, List, Set, Tuple

import tables

CRATES = Path(__file__).resolve().parents[2] / "crates"
FUNCTION = re.compile(r'\( ?"(\w+)", &\[([\w, ]*)\], (-?\d+), (\w+), (true|false),? ?\)')
KINDS = {"Operator": "operator", "Aggregator": "aggregator", "Number": "number"}


def source(path: str) -> str:
    return (CRATES / path).read_text(encoding="utf-8")


def body(path: str, begin: str, end: str = "\n    }\n") -> str:
    """The part of a file from the first line with a text up to an end."""
    text = source(path)
    if begin not in text:
        raise ValueError(f"crates/{path} has no `{begin}`")
    return text[text.index(begin) :].split(end, 1)[0]


def differing(name: str, ours: object, theirs: object) -> Iterator[str]:
    if ours != theirs:
        yield f"{name}: the table has {ours}, and the crates have {theirs}"


def crate_functions() -> List[Tuple[object, ...]]:
    """The rows of FUNCTIONS, each of which may be on several lines."""
    text = " ".join(body("promql_kind/src/function_table.rt", "const FUNCTIONS", "\n];").split())
    return [
        (name, tuple(re.findall(r"\w+", types.lower())), int(variadic), value.lower(), experimental == "true")
        for name, types, variadic, value, experimental in FUNCTION.findall(text)
    ]


def function_differences() -> Iterator[str]:
    ours, theirs = [tuple(it[:5]) for it in tables.functions_of("rules")], crate_functions()
    yield from differing("functions.tsv, how many", len(ours), len(theirs))
    for one, other in zip(ours, theirs):
        yield from differing("functions.tsv", one, other)


def version_differences() -> Iterator[str]:
    path = "promql_target/src/later.rt"
    later, numbers = (re.findall(r'"(\w+)"', body(path, f"fn {it}", "\n}\n")) for it in ("is_later", "is_logarithm"))
    ours = [it.name for it in tables.functions_of("rules") if "prometheus-2.42" not in it.targets]
    yield from differing("functions.tsv, those that 2.42 does not have", ours, sorted(later))
    taking = [it.name for it in tables.functions() if "rules" in it.numbers]
    yield from differing("functions.tsv, those that take a number", taking, sorted(numbers))


def kinds_listed(function: str) -> Set[str]:
    """The kinds of tokens of which a test of TokenKind holds."""
    text = body("promql_grammar/src/token_kinds.rt", f"fn {function}")
    listed, _, others = text.partition("_ =>")
    found = set(re.findall(r"TokenKind::(\w+)", listed.replace("TokenKind::MetricIdentifier => false", "")))
    return found | (kinds_listed("may_be_name") if "may_be_name" in others else set())


def keyword_differences() -> Iterator[str]:
    ids = dict(re.findall(r'\(b"(\w+)", (\w+)\)', body("promql_token/src/ids.rt", "const KEYWORDS", "\n];")))
    kinds = dict(re.findall(r"\((\w+), TokenKind::(\w+)", body("promql_grammar/src/token_kinds.rt", "const TOKEN_KINDS", "\n];")))
    yield from differing("keywords.tsv, its words", sorted(it.word for it in tables.keywords()), sorted(ids))
    names, labels = kinds_listed("may_be_name"), kinds_listed("may_be_label")
    for it in tables.keywords():
        kind = kinds.get(ids.get(it.word, ""), "")
        # (each is a word like others but before a parenthesis)
        place = "Identifier" if kind.startswith("Fill") else kind
        yield from differing(f"keywords.tsv, {it.word}", it.kind, KINDS.get(kind, "modifier"))
        yield from differing(f"keywords.tsv, {it.word} as a label", "rules" in it.label, place in labels)
        yield from differing(f"keywords.tsv, {it.word} as a metric", "rules" in it.metric, place in names)


def form_differences() -> Iterator[str]:
    path = "promql_target/src/refusal.rt"
    kinds = re.findall(r"^    (\w+),$", body(path, "pub enum RefusalKind", "\n}\n"), re.M)
    lasting = re.findall(r"RefusalKind::(\w+)", body(path, "fn is_lasting").split("=> true", 1)[0])
    refused = tables.forms("refusal")
    yield from differing("forms.tsv, its refusals", [it.name for it in refused], kinds)
    ours = [it.name for it in refused if it.verdicts["prometheus-3"] == "rejects"]
    yield from differing("forms.tsv, those of Prometheus 3", ours, lasting)
    texts = [path.read_text(encoding="utf-8") for path in sorted(CRATES.glob("*/src/**/*.rt"))]
    for it in tables.forms("error", "hint"):
        yield from differing(f"forms.tsv, {it.name}: there is a message `{it.text}`", True, any(f'"{it.text}' in text for text in texts))


def target_differences() -> Iterator[str]:
    names = re.findall(r'"([\w.-]+)" => Some', body("promql_span/src/target.rt", "fn from_name"))
    yield from differing("tables.py, TARGETS", sorted(tables.TARGETS), sorted(names))


COMPARISONS: Tuple[Callable[[], Iterator[str]], ...] = (
    function_differences, version_differences, keyword_differences, form_differences, target_differences,
)


def differences() -> List[str]:
    """What the tables and the crates say otherwise."""
    return [found for compare in COMPARISONS for found in compare()]
