"""A linter of queries: what the library accepts and is most likely not meant (docs/guide/lint.md).

>>> from promql.lint import lint
>>> for finding in lint('up{job=~"shop"} == 0'):
...     print(finding.code, finding.message)
P103 the pattern matches one text alone: write `job="shop"`
"""

from __future__ import annotations

from typing import Callable, Iterable, Iterator, List, Optional

import promql

from . import alert_rules, counter_rules, label_rules, matcher_rules, operator_rules, style_rules, target_rules
from ._target_tables import GONE
from .comments import Ignored, ignored_in
from .findings import Finding, Fix, Severity, Span, TextEdit, Tree
from .fixes import FixChecker, all_fixed
from .subject import IsWritten, RuleContext, Subject, always
from .table import REJECTED, RULES, UNCOMPARED, Rule, Selection, known_codes, unknown_words

__all__ = [
    "Finding", "Fix", "RULES", "Rule", "RuleContext", "Selection", "Severity", "Span", "TextEdit", "fix", "known_codes", "lint",
]

# The modules whose functions are the rules of the table.
_MODULES = (matcher_rules, counter_rules, operator_rules, label_rules, alert_rules, style_rules, target_rules)
_UNCOMPARED = "its patterns and values are too large together to be compared: P108 and P109 are not looked for in patterns"
_LONGEST = 500
# Whether it is to be said what was expected in a query that is rejected, which is read again for it.
Explains = Callable[[promql.QueryError], bool]


def lint(
    query: str, *, select: Iterable[str] = (), ignore: Iterable[str] = (), context: Optional[RuleContext] = None
) -> List[Finding]:
    """What is found in a query, in the order of the places. Codes are selected and left out by the texts that they begin with.

    A query that is rejected has one finding, P001. The context tells of the rule that has the query, which some rules ask for. Comments
    `# promql: ignore P103` in the query leave out codes. Raises ValueError where a text begins no code.
    """
    return look_at(query, selection_of(select, ignore), context or RuleContext())


def fix(query: str, *, select: Iterable[str] = (), ignore: Iterable[str] = (), context: Optional[RuleContext] = None) -> str:
    """The query with the fixes of all findings that have one. Each was checked: the changed query is read again, and has the tree that the
    fix intends, and the comments."""
    selection = selection_of(select, ignore)
    return all_fixed(query, lambda text, tree: list(found_in(text, tree, selection, context or RuleContext())))


def selection_of(select: Iterable[str], ignore: Iterable[str]) -> Selection:
    selection = Selection(tuple(select), tuple(ignore))
    unknown = unknown_words((*selection.selected, *selection.ignored))
    if unknown:
        raise ValueError(f"no rule has a code that begins with {unknown[0]}")
    return selection


def look_at(
    query: str, selection: Selection, context: RuleContext, is_written: IsWritten = always, explains: Explains = lambda error: True
) -> List[Finding]:
    """The same for a query of a file, of which texts may stand there for variables."""
    try:
        tree = promql.parse(query)
    except promql.QueryError as error:
        return [_rejected(error, error.message if explains(error) else error.reason)] if selection.has(REJECTED) else []
    return look_at_tree(query, tree, selection, context, is_written)


def look_at_tree(query: str, tree: Tree, selection: Selection, context: RuleContext, is_written: IsWritten = always) -> List[Finding]:
    """The same for a query that was read."""
    found = list(found_in(query, tree, selection, context, is_written))
    right = FixChecker(query, tree).checked([it.fix for it in found])
    return sorted((it._replace(fix=fix) for it, fix in zip(found, right)), key=lambda it: it[:3])


def found_in(
    query: str, tree: Tree, selection: Selection, context: RuleContext, is_written: IsWritten = always, ignored: Optional[Ignored] = None
) -> Iterator[Finding]:
    """The same, rule by rule, with fixes that are not checked; without what comments of the query silence, or with other codes left out."""
    subject = Subject(query, tree, context, is_written)
    ignored = ignored_in(query) if ignored is None else ignored
    if selection.has(UNCOMPARED) and UNCOMPARED not in ignored and not subject.compares_patterns:
        yield Finding(subject.whole, UNCOMPARED, _UNCOMPARED, Severity.INFO)
    for rule in selection.rules(subject.features):
        if rule.code not in ignored:
            for remark in rule.look(subject):
                # (a text of the query may make each of many messages long)
                message = remark.message[:_LONGEST] + "…" * (len(remark.message) > _LONGEST)
                yield Finding(remark.span, rule.code, message, rule.severity, remark.fix)


def _rejected(error: promql.QueryError, message: str) -> Finding:
    name = error.query[error.start : error.end].partition("(")[0].strip()
    hint = f": {GONE[name]}" if name in GONE and "unknown function" in error.reason else ""
    return Finding(Span(error.start, error.end), REJECTED, message + hint, Severity.ERROR)
