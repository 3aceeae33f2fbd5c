"""What is wrong in a document, or likely to be: the findings of the linter, and their fixes."""

from __future__ import annotations

from functools import lru_cache
from pathlib import Path
from typing import List, NamedTuple, Optional

from ..checked_queries import Document, GivenQuery
from ..files import FileError, Source
from ..lint.file_findings import FileLinter
from ..lint.findings import Severity
from ..lint.table import RULES, Selection
from ..queries import Edit

# How bad it is, as the protocol numbers it.
ERROR, WARNING, INFORMATION = 1, 2, 3


class Problem(NamedTuple):
    """What is wrong with the part `text[start:end]` of a document."""

    start: int
    end: int
    severity: int
    message: str
    # The code of a rule of the linter, and whether it has a fix.
    code: str = ""
    is_fixable: bool = False


_SEVERITIES = {Severity.ERROR: WARNING, Severity.WARNING: WARNING, Severity.INFO: INFORMATION}
# The page that has the rules, where the package is in its repository.
_PAGE = Path(__file__).resolve().parents[4] / "docs/guide/lint.md"


def lint_problems(file: Document, selection: Selection) -> List[Problem]:
    linter, found = FileLinter(file, selection), []
    for start, end, finding, *_ in linter.findings():
        found.append(Problem(start, end, _SEVERITIES[finding.severity], finding.message, finding.code, finding.fix is not None))
    return found + [Problem(it.start, it.end, WARNING, it.message) for it in linter.left]


def fix_edits(file: Document, selection: Selection, wanted: Optional[Problem]) -> List[Edit]:
    """The edits of a file that make the fix of a finding, or all fixes, after which it is read as it is to be."""
    linter = FileLinter(file, selection)
    if not wanted:
        linter.fixed()
        return linter.fixed_edits
    for found in linter.findings():
        if found.finding.fix and (found.start, found.end, found.finding.code) == (wanted.start, wanted.end, wanted.code):
            return linter.edits_of(found)
    raise FileError("left as it is: there is no such fix any more")


def given_query(text: str) -> GivenQuery:
    """A query that is a document."""
    return GivenQuery(Source("", text, ""))


@lru_cache(maxsize=None)
def page_of(code: str) -> str:
    """A link to what the guide says of a rule, or nothing where the guide is not here."""
    return f"{_PAGE.as_uri()}#{code.lower()}-{RULES[code].name}" if code in RULES and _PAGE.is_file() else ""
