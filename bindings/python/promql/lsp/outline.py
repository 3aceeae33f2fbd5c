"""What a file has, for its outline: groups of rules or panels with what is in them, and what an editor folds."""

from __future__ import annotations

from typing import TYPE_CHECKING, Any, Dict, List, NamedTuple, Optional, Tuple, Union

from ..dashboards import Dashboard
from ..rule_documents import Kind
from ..rule_files import RuleFile
from ..scalars import Node
from .rules import Rule, end_of

if TYPE_CHECKING:
    from .documents import Document

# The kinds of the protocol.
_GROUP, _RECORD, _QUERY, _ALERT = 3, 13, 15, 24
_LONGEST_NAME = 80


class Group(NamedTuple):
    """A group of rules, or a panel of a dashboard, `text[start:end]`."""

    name: str
    start: int
    end: int

    def moved(self, after: int, by: int) -> Group:
        """The same where the text from a place on is moved."""
        return Group(self.name, *(at + by if at >= after else at for at in self[1:]))


def groups_of(file: Union[Dashboard, RuleFile]) -> List[Group]:
    if isinstance(file, Dashboard):
        return [Group(*panel) for panel in file.panels()]
    return [_group(file, group) for group in file.groups(Kind.RULES, Kind.GRAFANA)]


def _group(file: RuleFile, group: Node) -> Group:
    length = len(file.source.text[group.start : end_of(group)[0]].rstrip())
    return Group(file.mappings.name(group, "name"), group.start, group.start + length)


def symbols(document: Document) -> List[Any]:
    """The groups with their rules, and the rules that are in none; a query that is in no rule has its text as its name."""
    if not document.is_rule_file:
        return []
    found: List[Any] = []
    inner, until = found, -1
    entries = [(it.start, _GROUP, it.end, it.name) for it in document.groups] + [_entry(rule) for rule in document.rules]
    for start, kind, end, name in sorted(entries):
        symbol = _symbol(document, name, kind, start, end)
        if kind == _GROUP:
            found.append({**symbol, "children": []})
            inner, until = found[-1]["children"], end
        else:
            (inner if start <= until else found).append(symbol)
    return found


def _entry(rule: Rule) -> Tuple[int, int, int, str]:
    kind = _RECORD if rule.record else _ALERT if rule.alert else _QUERY
    return rule.start, kind, rule.end, rule.record or rule.alert or " ".join(query.shown(query.text) for query in rule.queries)


def _symbol(document: Document, name: str, kind: int, start: int, end: int) -> Dict[str, Any]:
    place = document.lines.range(start, max(start, end))
    # (an editor takes no empty name)
    shown = " ".join(name[:_LONGEST_NAME].split()) or "(unnamed)"
    return {"name": shown, "kind": kind, "range": place, "selectionRange": {"start": place["start"], "end": place["start"]}}


def folds(document: Document) -> Optional[List[Any]]:
    """The lines of groups, of rules, and of what is in brackets; nothing where there are none, so that an editor folds in its own way."""
    lines = document.lines
    found = {(lines.point(start)[0], lines.point(end)[0]) for start, end in document.parts()}
    for query in document.queries():
        for fold in query.folds:
            start, end = (lines.point(at)[0] for at in query.span(*fold))
            found.add((start, end - 1))
    return [{"startLine": start, "endLine": end} for start, end in sorted(found) if end > start] or None
