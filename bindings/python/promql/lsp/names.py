"""What queries name, as their tokens tell, also in a text that is not accepted: selectors, lists of labels, metrics with their places, and values
of labels."""

from __future__ import annotations

from typing import Callable, Dict, Iterable, Iterator, List, NamedTuple, Optional, Sequence, Set, Tuple

import promql

from ..token_texts import MATCHER_SIGNS, Token, code_of, string_content

# The words before a list of labels.
LABELS = ("by", "without", "on", "ignoring", "group_left", "group_right")


class Matcher(NamedTuple):
    """A matcher of a selector; a lone string is the name of the metric, and has neither name nor sign."""

    name: Optional[Token]
    sign: Optional[Token]
    value: Token

    @property
    def is_of_metric(self) -> bool:
        """Whether it says which metric is selected."""
        return not self.name or plain(self.name) == "__name__" and self.sign is not None and self.sign.text == "="


class Selector(NamedTuple):
    """A selector, `text[start:end]`, without what follows its braces."""

    name: Optional[Token]
    matchers: Tuple[Matcher, ...]
    start: int
    end: int


def plain(token: Token) -> str:
    """A word, or a string without its quotes."""
    return token.text[1:-1] if token.kind == "string" else token.text


def selectors_of(text: str) -> List[Selector]:
    """The selectors of a text, in their order."""
    tokens = code_of(text)
    names, found, at = _names(text, tokens), [], 0
    while at < len(tokens):
        first = at
        at += tokens[at].start in names
        name = tokens[first] if at > first else None
        braces = at + 1
        if at < len(tokens) and tokens[at].text == "{":
            at = next((number for number in range(at, len(tokens)) if tokens[number].text == "}"), len(tokens) - 1) + 1
        if at > first:
            found.append(Selector(name, tuple(_matchers(tokens[braces:at])), tokens[first].start, tokens[at - 1].end))
        at = max(at, first + 1)
    return found


def _names(text: str, tokens: Sequence[Token]) -> Set[int]:
    """Where the names of metrics before braces begin, and some in braces where the text is not accepted."""
    calls = {token.start for token, after in zip(tokens, tokens[1:]) if after.text == "("}
    try:
        return {part.start for node in promql.parts(text) for part in node if part.kind == "name"} - calls
    except ValueError:
        return {token.start for token in tokens if token.kind == "name"} - {token.start for token in labels_in(tokens)} - calls


def _matchers(tokens: Sequence[Token]) -> Iterator[Matcher]:
    """The matchers between braces: a name, an operator and a string in a row, or a string alone."""
    at = 0
    while at < len(tokens):
        first, sign, value = tokens[at], *(tokens[number] if number < len(tokens) else None for number in (at + 1, at + 2))
        is_signed = sign is not None and sign.text in MATCHER_SIGNS
        is_whole = is_signed and value is not None and value.kind == "string" and first.kind in ("name", "string")
        if is_whole and value:
            yield Matcher(first, sign, value)
        elif first.kind == "string" and not is_signed:
            yield Matcher(None, None, first)
        at += 3 if is_whole else 1


def labels_in(tokens: Sequence[Token]) -> Iterator[Token]:
    """The labels in lists of labels."""
    is_list, before = False, ""
    for token in tokens:
        if token.is_sign:
            is_list = token.text == "(" and before in LABELS or is_list and token.text == ","
        elif is_list:
            yield token
        before = token.lower if token.kind == "keyword" else ""


class Use(NamedTuple):
    """The name of a metric, `text[start:end]` of a query or a document."""

    name: str
    start: int
    end: int


class Names(NamedTuple):
    """What a query names."""

    metrics: Tuple[Use, ...]
    labels: Tuple[str, ...]
    values: Tuple[Tuple[str, str], ...]


def names_of(text: str) -> Names:
    """What a query names; the name of a metric in a string with an escape is none here."""
    metrics: List[Use] = []
    labels = {plain(token) for token in labels_in(code_of(text))}
    values: Set[Tuple[str, str]] = set()
    for selector in selectors_of(text):
        if selector.name:
            metrics.append(Use(selector.name.text, selector.name.start, selector.name.end))
        for matcher in selector.matchers:
            value = plain(matcher.value)
            if matcher.is_of_metric and "\\" not in value:
                metrics.append(Use(value, *string_content(matcher.value)))
            if matcher.name and matcher.sign:
                labels.add(plain(matcher.name))
                if value and matcher.sign.text in ("=", "!="):
                    values.add((plain(matcher.name), value))
    return Names(tuple(metrics), tuple(sorted(labels - {"__name__"})), tuple(sorted(values)))


def names_with(names: Names, is_one: Callable[[str], bool]) -> Names:
    """Those of the names that are some."""
    metrics, labels = (use for use in names.metrics if is_one(use.name)), filter(is_one, names.labels)
    return Names(tuple(metrics), tuple(labels), tuple(it for it in names.values if all(map(is_one, it))))


class Known(NamedTuple):
    """The names of many queries."""

    metrics: Set[str]
    labels: Set[str]
    values: Dict[str, Set[str]]
    # The labels that go with the metric that is asked about.
    near: Set[str]

    def add(self, other: Known) -> None:
        for own, others in ((self.metrics, other.metrics), (self.labels, other.labels), (self.near, other.near)):
            own.update(others)
        for label, values in other.values.items():
            self.values.setdefault(label, set()).update(values)


def known(names: Iterable[Names], metric: str = "") -> Known:
    """The names of queries; the labels of those with a metric go with it."""
    found = Known(set(), set(), {}, set())
    for each in names:
        if metric and any(use.name == metric for use in each.metrics):
            found.near.update(each.labels)
        found.metrics.update(use.name for use in each.metrics)
        found.labels.update(each.labels)
        for label, value in each.values:
            found.values.setdefault(label, set()).add(value)
    return found
