"""Rules about what reads the queries (`promql.set_target`): P901 and P902."""

from __future__ import annotations

from typing import Iterator

from .findings import Remark, Severity, Span
from .subject import Subject
from .table import rule


@rule("P901", "read-otherwise", Severity.ERROR)
def read_otherwise(subject: Subject) -> Iterator[Remark]:
    """The target reads a part of the query otherwise than its line."""
    return _remarks(subject, is_rejected=False)


@rule("P902", "rejected-by-target", Severity.ERROR)
def rejected_by_target(subject: Subject) -> Iterator[Remark]:
    """The target rejects a part of the query."""
    return _remarks(subject, is_rejected=True)


def _remarks(subject: Subject, is_rejected: bool) -> Iterator[Remark]:
    for it in subject.differences:
        if it.is_rejected == is_rejected and subject.is_written(subject.text[it.start : it.end]):
            yield Remark(Span(it.start, it.end), it.message)
