"""The files that a command is to work on, those in folders among them, and what they are: rule files and dashboards."""

from __future__ import annotations

import os
import re
from contextlib import suppress
from enum import IntEnum
from importlib import import_module
from typing import TYPE_CHECKING, Iterable, Iterator, List, Mapping, NamedTuple, Optional, Sequence, Union

from ._answers import Status as Answered
from .checked_queries import Document, FileBounds, QueryChecker
from .files import BoundError, FileError, NoReaderError, Source, Unclear, nested_too_deeply, read_source
from .quick_rules import RulesInOrder

if TYPE_CHECKING:
    from .dashboards import Dashboard
    from .rule_files import RuleFile


class Target(NamedTuple):
    """A file to work on."""

    name: str
    # Whether it was found in a folder: then it may be something else than a rule file.
    is_found: bool = False
    # Why it cannot be worked on.
    fault: str = ""
    # The query that is meant, where it is no file.
    query: Optional[str] = None
    # Why it is not worked on, as what it most likely is.
    left: str = ""

    @property
    def is_json(self) -> bool:
        return self.name.endswith(".json")

    @property
    def is_for_rules(self) -> bool:
        """Whether its name says that it has rules."""
        return self.name.endswith(_RULES)


# The texts in the places of variables of dashboards.
Variables = Optional[Mapping[str, str]]
_RULES = (".rules", ".rule")
# The module of dashboards, which is imported where there are some.
BOARDS = "promql.dashboards"
_READ = (".yml", ".yaml", *_RULES, ".json")
# What a file is made of by another program, which is to be run before.
_TEMPLATES = (".j2", ".jinja", ".jinja2", ".tmpl", ".tpl", ".gotmpl", ".erb")
_TEMPLATE = "a template, by its name: check what is made of it"


def targets_of(names: Sequence[str], is_dashboard: bool) -> List[Target]:
    """The files, those of a folder in its place: what ends as rule files and dashboards do, or in .json where dashboards are asked for."""
    ends = (".json",) if is_dashboard else _READ
    return [target for name in names for target in (_in_folder(name, ends) if os.path.isdir(name) else [Target(name)])]


def is_read(name: str) -> bool:
    """Whether a file of a folder is read, by its name."""
    return name.endswith(_READ)


def _in_folder(folder: str, ends: Sequence[str]) -> Iterator[Target]:
    errors: List[OSError] = []
    paths: List[str] = []
    # (links to folders are not followed, and what begins with a dot is left out, as by a shell)
    for place, folders, files in os.walk(folder, onerror=errors.append):
        folders[:] = [name for name in folders if not name.startswith(".")]
        found = (os.path.join(place, name) for name in files if _stem(name).endswith(tuple(ends)) and not name.startswith("."))
        # (of what is no file, such as a pipe, nothing is said, but a link that leads nowhere was meant as one)
        paths += (path for path in found if os.path.isfile(path) or not os.path.exists(path))
    for error in errors:
        yield Target(str(error.filename), fault=f"{error.filename}: {error.strerror}")
    if not paths and not errors:
        listed = " or ".join([*([", ".join(ends[:-1])] if ends[1:] else []), ends[-1]])
        yield Target(folder, fault=f"{folder}: no file in it ends in {listed}")
    for path in sorted(paths):
        yield Target(path, is_found=True, left="" if path == _stem(path) else _TEMPLATE)


def _stem(name: str) -> str:
    """The name of a file without what says that it is a template."""
    return os.path.splitext(name)[0] if name.endswith(_TEMPLATES) else name


GROUPS = re.compile(r"^[^\S\n]*groups:", re.M)
# An escape that YAML may have in a key; the key of a query, as YAML and JSON have it.
_ESCAPE = re.compile(r"\\[xuU]")
_QUERY_KEY = re.compile(r"(?<![\w.$-])[\"']?expr[\"']?\s*:")


class Status(IntEnum):
    """What a command ends with: the last one of these that it has a reason for. Errors have the numbers that they have in the programs
    (docs/reference/programs.md)."""

    FINE = 0
    # No file has a query.
    EMPTY = 66
    FOUND = 1
    NOT_FORMATTED = 19
    SMALL_STACK = Answered.SMALL_STACK
    REFUSED = Answered.REFUSED
    READ_OTHERWISE = Answered.READ_OTHERWISE
    TOO_LARGE = Answered.TOO_LARGE
    LARGE_ENFORCED = Answered.LARGE_ENFORCED
    BARE_INFO = Answered.BARE_INFO
    UNFAITHFUL = Answered.UNFAITHFUL
    REJECTED = Answered.REJECTED
    NOT_UTF8 = Answered.NOT_UTF8
    FAILED = 2
    NOT_WRITTEN = 5

    @staticmethod
    def last(statuses: Iterable[Status]) -> Status:
        """The one of these that counts."""
        return max(statuses, key=_RANKS.__getitem__)


_RANKS = {status: rank for rank, status in enumerate(Status)}


class Skipped(Exception):
    """A file of a folder that is not looked at: why, and whether that is to be said in any case, since it may have queries."""

    def __init__(self, why: str, is_warning: bool) -> None:
        super().__init__(why)
        self.why, self.is_warning = why, is_warning


def read_document(
    target: Target, is_dashboard: bool, variables: Variables = None, bounds: FileBounds = FileBounds(), is_quick: bool = False
) -> Document:
    """Reads a file within these bounds, which is a dashboard where its name ends with .json, too. Of rules in order, only their number is
    found where that is to be quick.

    A file that was found in a folder, and is something else, raises Skipped. One that is not YAML is that where no line of it begins with
    `groups:`, as in rules, and one that is not JSON where it has no `expr`.
    """
    if target.fault:
        raise FileError(target.fault)
    if target.left:
        raise Skipped(target.left, True)
    try:
        document = _read(target, is_dashboard, variables, QueryChecker(bounds), is_quick)
    except BoundError as error:
        text = error.source.text if error.source else ""
        if target.is_found and not _QUERY_KEY.search(text) and not _ESCAPE.search(text):
            raise Skipped("no rule file", target.is_for_rules) from error
        raise
    except NotReadError as error:
        if target.is_found and not GROUPS.search(error.text) and not (target.is_json and _QUERY_KEY.search(error.text)):
            has_query = _QUERY_KEY.search(error.text) is not None
            raise Skipped("it is not YAML, and no line of it begins with `groups:`", has_query) from error
        raise
    if document is None or target.is_found and not document.is_known:
        has_query = document is not None and _QUERY_KEY.search(document.source.text) is not None
        why = "it has an `expr`, and no rules or panels that are known" if has_query else "no rule file"
        raise Skipped(why, has_query or target.is_for_rules)
    return document


def _read(target: Target, is_dashboard: bool, variables: Variables, checker: QueryChecker, is_quick: bool) -> Optional[Document]:
    """The document of a file; nothing for a file of a folder that surely is none."""
    source = read_source(target.name)
    try:
        if target.is_found and (is_dashboard or target.is_json) and not import_module(BOARDS).may_have_queries(source.text):
            return None
        if is_quick and not is_dashboard and not target.is_json:
            with suppress(Unclear):
                return RulesInOrder(source, QueryChecker(checker.bounds))
        return document_of(source, is_dashboard, target.is_json, variables, checker)
    except BoundError:
        raise
    except RecursionError as error:
        raise NotReadError(source, nested_too_deeply(target.name)) from error
    except FileError as error:
        raise NotReadError(source, error) from error


def document_of(
    source: Source, is_dashboard: bool, is_json: bool, variables: Variables, checker: QueryChecker
) -> Union[Dashboard, RuleFile]:
    """The document that a text is."""
    # (importing it takes longer than a hundred files in order)
    from .rule_files import RuleFile
    if not is_dashboard and not is_json:
        return RuleFile(source, checker)
    board: Dashboard = import_module(BOARDS).Dashboard(source, variables, checker)
    if board.queries or not board.unread or is_dashboard:
        return board
    # (JSON is YAML, too, and some write their rules so)
    try:
        file = RuleFile(source, checker)
    except NoReaderError:
        if "rules" in source.text:
            raise
        return board
    return file if file.queries else board


class NotReadError(FileError):
    """Why a file that has this text cannot be read."""

    def __init__(self, source: Source, error: FileError) -> None:
        super().__init__(str(error), error.number)
        self.text = source.text
        self.source, self.span, self.message = error.source, error.span, error.message
