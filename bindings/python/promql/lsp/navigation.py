"""From a metric to the rule that records it and to its uses, and a new name for all of them."""

from __future__ import annotations

import mmap
import os
from pathlib import Path
from typing import Any, Dict, Iterable, Iterator, List, NamedTuple, Optional, Sequence, Tuple

import promql

from ..documents import targets_of
from ..files import NULLS, FileError, read_source
from ..queries import Edit, edited
from .documents import TOO_LARGE, Document
from .layout import LeftError
from .messages import INVALID_PARAMS, REQUEST_FAILED, ProtocolError
from .names import Use, names_of
from .rules import PlacedQuery, file_of, problems_of, read_lines


def metric_at(document: Document, offset: int) -> Optional[Use]:
    """The metric that is named at a place, in a query or as what a rule records, with its part of the document."""
    for rule in document.rules:
        if rule.record and rule.record_start <= offset <= rule.record_end:
            return Use(rule.record, rule.record_start, rule.record_end)
    place = document.place(offset)
    for use in place.query.names.metrics if place else ():
        if place and use.start <= place.at <= use.end:
            return Use(use.name, *place.query.span(use.start, use.end))
    return None


def records(documents: Iterable[Document], name: str) -> Iterator[Tuple[Document, int, int]]:
    """The places where rules record a metric."""
    for document in documents:
        for rule in document.rules:
            if rule.record == name:
                yield document, rule.record_start, rule.record_end


def uses(documents: Iterable[Document], name: str) -> Iterator[Tuple[Document, int, int]]:
    """The places where queries name a metric."""
    for document in documents:
        for query in document.queries():
            for use in query.names.metrics:
                if use.name == name:
                    yield (document, *query.span(use.start, use.end))


def location(document: Document, start: int, end: int) -> Dict[str, Any]:
    return {"uri": document.uri, "range": document.lines.range(start, end)}


def rename(documents: List[Document], name: str, new: str) -> Dict[str, Any]:
    """The edits of each document that give a metric another name, by its URI. Raises where one of them would do anything else."""
    if not _is_metric(new):
        raise ProtocolError(INVALID_PARAMS, f"not a name of a metric: {new!r}")
    changes: Dict[str, Any] = {}
    for document in documents:
        places = [place[1:] for place in (*records([document], name), *uses([document], name))]
        if not places:
            continue
        if not document.is_read:
            raise ProtocolError(REQUEST_FAILED, "a document with this metric cannot be read as it is")
        if any(document.text[start:end] != name for start, end in places):
            raise ProtocolError(REQUEST_FAILED, "the name is written with escapes in one place")
        _look_at(document, name, new)
        edits = [{"range": document.lines.range(start, end), "newText": new} for start, end in sorted({*places})]
        changes[document.uri] = edits
    return changes


def _is_metric(name: str) -> bool:
    """Whether a name is one of a metric; in YAML a colon at an end may be a sign, and some words are no text."""
    try:
        promql.rename_metric("up", "up", name)
    except ValueError:
        return False
    return not name.endswith(":") and not name.startswith(":") and name not in NULLS


def _look_at(document: Document, name: str, new: str) -> None:
    """Raises where the new name would make a query another one than the old with the names exchanged."""
    for rule in document.rules:
        own = [query for query in rule.queries if any(use.name == name for use in query.names.metrics)]
        for query in own:
            _look_at_query(query, name, new)
        if (own or rule.record == name) and rule.is_alone:
            edits = [Edit(*query.span(use.start, use.end), new) for query in own for use in query.names.metrics if use.name == name]
            if rule.record == name:
                edits.append(Edit(rule.record_start, rule.record_end, new))
            text = edited(document.text[: rule.end], edits)
            found = read_lines(text, rule.start, len(text))
            record = new if rule.record == name else rule.record
            wanted = [_renamed(query, name, new) for query in rule.queries]
            if not found or len(found) != 1 or found[0].record != record or [it.text for it in found[0].queries] != wanted:
                raise ProtocolError(REQUEST_FAILED, f"a rule would not be read the same with the name {new!r}")


def _renamed(query: PlacedQuery, name: str, new: str) -> str:
    return edited(query.text, [Edit(use.start, use.end, new) for use in query.names.metrics if use.name == name])


def _look_at_query(query: PlacedQuery, name: str, new: str) -> None:
    try:
        promql.canonical(query.text)
    except ValueError:
        # (a query that is rejected has nothing to lose but its places)
        return
    text = _renamed(query, name, new)
    try:
        is_right = promql.canonical(text) == promql.canonical(promql.rename_metric(query.text, name, new))
    except ValueError as error:
        raise ProtocolError(REQUEST_FAILED, f"a query would be rejected with the name {new!r}: {error}") from error
    if not is_right or len(names_of(text).metrics) != len(query.names.metrics):
        raise ProtocolError(REQUEST_FAILED, f"a query would be another one with the name {new!r}")


# ---- files that no editor has open


class Renaming(NamedTuple):
    """A metric, its new name, the folders, and the files in them that are open."""

    name: str
    new: str
    folders: Sequence[str]
    opened: Sequence[str]


def changes_in_folders(renaming: Renaming) -> Dict[str, Any]:
    """The edits of each file with the metric, by its URI. Raises where one cannot be read, or would not be read the same."""
    opened, changes = {os.path.realpath(path) for path in renaming.opened if path}, {}
    for target in targets_of([it for it in renaming.folders if os.path.isdir(it)], False):
        path = os.path.realpath(target.name)
        if not target.left and path not in opened and os.path.isfile(path):
            opened.add(path)
            try:
                changes.update(_changes(path, renaming))
            except (ProtocolError, FileError, OSError) as error:
                raise LeftError(f"{path}: {getattr(error, 'strerror', None) or error}") from error
    return changes


def _changes(path: str, renaming: Renaming) -> Dict[str, Any]:
    if not os.path.getsize(path):
        return {}
    with open(path, "rb") as file, mmap.mmap(file.fileno(), 0, access=mmap.ACCESS_READ) as data:
        if data.find(renaming.name.encode()) < 0:
            return {}
    document = Document(Path(path).as_uri(), "", 0, read_source(path).text)
    rules, problems = (None, [TOO_LARGE]) if document.is_large else problems_of(document.text, is_json=document.is_json)
    if rules is None and problems:
        raise FileError(problems[0].message)
    document.settle(rules or [])
    changes = rename([document], renaming.name, renaming.new)
    if changes and sum(len(rule.queries) for rule in document.rules) < sum(not it.skipped for it in file_of(document.text, document.is_json).queries):
        raise FileError("it has more queries than are looked at")
    return changes
