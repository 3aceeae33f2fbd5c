"""The table of the linter's rules, and which of them are asked for."""

from __future__ import annotations

from functools import lru_cache
from typing import Callable, Dict, FrozenSet, Iterable, Iterator, List, NamedTuple, Tuple

from .findings import Remark, Severity
from .subject import Subject

Look = Callable[[Subject], Iterator[Remark]]


class Rule(NamedTuple):
    """A rule: its code, its name, how bad a finding is, and what looks for it."""

    code: str
    name: str
    severity: Severity
    look: Look
    # Whether it is asked for where nothing is said.
    is_default: bool = True
    # What a query has to have for it (`Subject.features`); nothing where it looks at all queries.
    needs: str = ""


RULES: Dict[str, Rule] = {}
# What is no rule of its own: the library rejects the query; its patterns and values are too large together to be compared; a comment
# silences nothing.
REJECTED, UNCOMPARED, UNUSED = "P001", "P002", "P003"
# What `check --prometheus` finds, by its codes: names and helps.
LIVE = {
    "P801": ("no-such-metric", "A metric of which a server has no series."),
    "P802": ("no-such-label", "A label that no series of a metric has on a server."),
    "P803": ("no-such-value", "A matcher that no series of a metric fits on a server."),
    "P804": ("no-such-series", "Matchers that fit series of a server, but none all of them."),
    "P805": ("many-series", "A query that reads more series of a server than it may."),
    "P806": ("many-samples", "A query that reads more samples of a server than it may."),
    "P807": ("reads", "How many series and samples of a server a query reads."),
}
# The names and the helps of codes without a rule.
_OTHERS = {
    REJECTED: ("rejected", "The query is rejected."),
    UNCOMPARED: ("not-compared", "The patterns of the query are too large to be compared with its values."),
    UNUSED: ("unused-comment", "A comment silences no finding."),
    **LIVE,
}


def rule(code: str, name: str, severity: Severity, is_default: bool = True, needs: str = "") -> Callable[[Look], Look]:
    """Enters a function into the table as the rule of this code."""

    def enter(look: Look) -> Look:
        assert code not in RULES, code
        RULES[code] = Rule(code, name, severity, look, is_default, needs)
        return look

    return enter


def name_of(code: str) -> str:
    return _OTHERS[code][0] if code in _OTHERS else RULES[code].name


def help_of(code: str) -> str:
    """What a rule looks for, in a sentence."""
    return _OTHERS[code][1] if code in _OTHERS else (RULES[code].look.__doc__ or "").split("\n")[0]


def known_codes() -> List[str]:
    return sorted([*_OTHERS, *RULES])


class Selection(NamedTuple):
    """Which codes are asked for: by codes, by what these begin with (`P1`), or all."""

    selected: Tuple[str, ...] = ()
    ignored: Tuple[str, ...] = ()
    # Codes that are asked for beside these, or left out: the last one that means a code counts.
    steps: Tuple[Tuple[bool, str], ...] = ()

    def has(self, code: str) -> bool:
        if any(is_meant(code, word) for word in self.ignored):
            return False
        for is_on, word in reversed(self.steps):
            if is_meant(code, word):
                return is_on
        if self.selected:
            return any(is_meant(code, word) for word in self.selected)
        return code in _OTHERS or RULES[code].is_default

    def rules(self, features: FrozenSet[str]) -> Tuple[Rule, ...]:
        """The rules that may find something in a query that has these."""
        return _selected(self, features)


@lru_cache(maxsize=1024)
def _selected(selection: Selection, features: FrozenSet[str]) -> Tuple[Rule, ...]:
    rules = (RULES[code] for code in sorted(RULES) if selection.has(code))
    return tuple(it for it in rules if not it.needs or it.needs in features)


def is_meant(code: str, word: str) -> bool:
    """Whether a word of a list of codes means this code."""
    return word == "all" or code.startswith(word)


def unknown_words(words: Iterable[str]) -> List[str]:
    """The words that mean no code."""
    return [word for word in words if not any(is_meant(code, word) for code in known_codes())]
