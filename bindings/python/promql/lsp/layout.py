"""Laying out the queries of a document: edits of its text, after which it was seen to mean the same."""

from __future__ import annotations

import re
from contextlib import suppress
from typing import Dict, Iterator, List, NamedTuple, Optional, Tuple, Union

import promql

from ..checked_queries import QueryChecker
from ..dashboards import Dashboard
from ..files import FileError
from ..format_command import Printer, same_as
from ..options import PEOPLE, WIDTH
from ..queries import Edit, Query, edited
from ..rule_files import RuleFile
from ..token_texts import comments_of
from .rules import Rule, file_of, lines_before, read_file, rules_at
from .settings import Settings

# How many rules are looked at while the editor waits.
_FEW = 40
# Blank lines and comments.
_BETWEEN = re.compile(r"[ \t]*(?:#[^\r\n]*)?(?:(?:\r\n|\r|\n)[ \t]*(?:#[^\r\n]*)?)*")
_LINE_END = re.compile(r"[\r\n]")
_NOT_SAME = "left as it is: formatted, it would not be read as the same"


class LeftError(Exception):
    """Why a text is left as it is."""


Span = Tuple[int, int]


def rule_file_edits(text: str, span: Optional[Span], settings: Settings = Settings(), is_json: bool = False) -> List[Edit]:
    """The edits that lay out the queries of a file, or those of them that are in a part of it. What is rejected is left."""
    return _edits_in(file_of(text, is_json), span, settings, by_rules=True)


def _edits_in(file: Union[Dashboard, RuleFile], span: Optional[Span], settings: Settings, by_rules: bool) -> List[Edit]:
    """The same. By rules, only those that change are read again, where they are few, and not all of the file."""
    text, admits, printers = file.source.text, file.checker.admits, _Printers(settings)
    queries = [it for it in file.queries if span is None or it.offsets[0] <= span[1] and span[0] <= it.offsets[-1]]
    changes = [(it, new) for it in queries if admits(it.text) for new in [printers.laid_out(it)] if new is not None]
    if not changes:
        return []
    edits = [query.spelling.edit(new) for query, new in changes]
    if by_rules and isinstance(file, RuleFile) and len(edits) <= _FEW and _means_the_same_by_rules(file, changes, edits, settings):
        return sorted(edits)
    with suppress(FileError):
        if file.same(edited(text, edits), same_as(changes, printers.of)):
            return sorted(edits)
    raise LeftError(_NOT_SAME)


class _Printers:
    """How queries are written: those with a comment for people, since every other layout loses it."""

    def __init__(self, settings: Settings) -> None:
        self._of_others = Printer(settings.width, False, str, settings.style)
        self._of_noted = Printer(settings.width, False, str, PEOPLE)

    def of(self, query: Query) -> Printer:
        return self._of_noted if comments_of(query.text) else self._of_others

    def laid_out(self, query: Query) -> Optional[str]:
        """The query as it is to be written, where it is written in another way."""
        try:
            printer = self.of(query)
            text = None if QueryChecker.error(query.text) or printer.why_left(query) else printer.text(query)
        except ValueError:
            return None
        return text if text != query.original.rstrip("\n") else None


def _means_the_same_by_rules(file: RuleFile, changes: List[Tuple[Query, str]], edits: List[Edit], settings: Settings) -> bool:
    """Whether each edit is that of a rule which can be looked at by itself."""
    text = file.source.text
    rules = {rule.start if rule else -1: rule for rule in rules_at(file, [query.offsets[0] for query, _ in changes])}
    parts = [_part(text, rule) if rule else None for rule in rules.values()]
    try:
        found = [edit for part in parts if part for edit in _edits_of(part, settings)]
    except (LeftError, FileError):
        return False
    return None not in parts and sorted(found) == sorted(edits)


# ---- rules by themselves


class _Part(NamedTuple):
    """The lines of a rule, with the comments after them, which a block may not take in."""

    start: int
    text: str


def lines_edits(text: str, rules: List[Rule], span: Span, settings: Settings = Settings()) -> Optional[List[Edit]]:
    """The edits of a part of a file that is read, where few rules are in it; nothing where they have to be looked at with all others."""
    begins = [*(rule.start for rule in rules), len(text)]
    inside = [rule for number, rule in enumerate(rules) if rule.start <= span[1] and span[0] <= begins[number + 1]]
    parts = [_part(text, rule) for rule in inside]
    if len(inside) > _FEW or None in parts:
        return None
    found = [_edits_of(part, settings, span) for rule, part in zip(inside, parts) if part and rule.end >= span[0]]
    return [edit for edits in found for edit in edits] if None not in found else None


def _part(text: str, rule: Rule) -> Optional[_Part]:
    """A rule whose lines can be looked at by themselves."""
    between = _BETWEEN.match(text, rule.end)
    end = between.end() if between else rule.end
    if not rule.is_alone or end < len(text) and not _LINE_END.search(text, rule.end, end):
        return None
    lines = text[rule.start : end]
    return _Part(rule.start, lines) if lines_before(lines) is not None else None


def _edits_of(part: _Part, settings: Settings, span: Optional[Span] = None) -> List[Edit]:
    before = lines_before(part.text) or ""
    by = part.start - len(before)
    inside = (max(span[0] - by, 0), max(span[1] - by, 0)) if span else None
    edits = _edits_in(read_file(before + part.text), inside, settings, by_rules=False)
    return [Edit(edit.start + by, edit.end + by, edit.text) for edit in edits]


class RuleLayouts:
    """What laying out the rules of a file came to, by their lines: so only rules that are new or were changed are looked at again."""

    def __init__(self) -> None:
        # The edits of a rule, counted from its first line on.
        self._known: Dict[str, Tuple[Edit, ...]] = {}
        self._settings = Settings()

    def edits(self, text: str, rules: List[Rule], settings: Settings = Settings()) -> Optional[List[Edit]]:
        """The edits of a file that is read; nothing where it has to be looked at as a whole, since many of its rules are new."""
        if settings != self._settings:
            self._known, self._settings = {}, settings
        parts = [_part(text, rule) for rule in rules]
        unknown = [part for part in parts if part and part.text not in self._known]
        # (a rule without a query may be of a file whose queries are not PromQL)
        if None in parts or len(unknown) > _FEW or not all(rule.queries for rule in rules):
            return None
        for part in unknown:
            self._known[part.text] = tuple(_moved(_edits_of(part, settings), -part.start))
        if len(self._known) > 4 * len(parts) + _FEW:
            self._known = {part.text: self._known[part.text] for part in parts if part}
        return [edit for part in parts if part for edit in _moved(self._known[part.text], part.start)]

    def learn(self, text: str, rules: List[Rule], edits: List[Edit]) -> None:
        """Keeps the edits of a file that was looked at as a whole, of which each rule's are those in its lines. A rule that they were
        made in is laid out."""
        at = 0
        for part in filter(None, (_part(text, rule) for rule in rules)):
            own: List[Edit] = []
            while at < len(edits) and edits[at].start < part.start + len(part.text):
                own += [edits[at]] if edits[at].start >= part.start else []
                at += 1
            relative = tuple(_moved(own, -part.start))
            self._known[part.text] = relative
            self._known[edited(part.text, relative)] = ()


def _moved(edits: "List[Edit] | Tuple[Edit, ...]", by: int) -> Iterator[Edit]:
    return (Edit(edit.start + by, edit.end + by, edit.text) for edit in edits)


# ---- a query in a document of its own


def query_edits(text: str, width: int = WIDTH) -> List[Edit]:
    """The edit that lays out a query for people, whose text ends in a line end if it did."""
    new = promql.format(text, width=min(width, promql.MAX_LINE)) + "\n" * text.endswith("\n")
    return [Edit(0, len(text), new)] if new != text else []


def node_edits(text: str, span: Span, width: int = WIDTH) -> List[Edit]:
    """The edit that lays out the smallest node of a query with this part in it."""
    start, end = _trimmed(text, span)
    around = [place for place in promql.places(text) if place[0] <= start and end <= place[1]]
    if not around:
        return query_edits(text, width)
    start, end = around[-1]
    line = text[text.rfind("\n", 0, start) + 1 : start]
    indentation = line[: min(len(line) - len(line.lstrip(" ")), width // 2)]
    laid_out = promql.format(text[start:end], width=min(width, promql.MAX_LINE) - len(indentation))
    edit = Edit(start, end, laid_out.replace("\n", "\n" + indentation))
    new = edited(text, [edit])
    if promql.canonical(new) != promql.canonical(text) or comments_of(new) != comments_of(text):
        raise LeftError(_NOT_SAME)
    return [edit] if edit.text != text[start:end] else []


def _trimmed(text: str, span: Span) -> Span:
    """A part without the white space at its ends."""
    part = text[slice(*span)]
    start = span[0] + len(part) - len(part.lstrip())
    return start, max(start, span[1] - len(part) + len(part.rstrip()))
