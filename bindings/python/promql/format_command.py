"""promql-rules format: lays out the queries of rule files and dashboards, and changes nothing else in them."""

from __future__ import annotations

import argparse
import re
import sys
from bisect import bisect_right
from contextlib import suppress
from dataclasses import dataclass
from difflib import SequenceMatcher
from functools import lru_cache, partial
from itertools import accumulate
from typing import Any, Callable, ContextManager, Iterator, List, Optional, Sequence, Tuple

import promql

from .checked_queries import VERDICTS, Budget, Document, QueryChecker, limited_to
from .documents import Status, Target, read_document, targets_of
from .files import BLANKS, STDIN, BoundError, Fault, FileError, write_file
from .jobs import Report, add_arguments, as_bytes, bounds_of, work_on
from .messages import ERROR, KEPT, LAYOUT, REJECTED, RULE, WARNING, Message, in_order, kind_of_skipped, left_out, listed, of_error, placed
from .options import PEOPLE, PRETTY, STYLES, WIDTH, whole_number
from .queries import Edit, Query, SameQuery, Spelling, edited
from .terminal import visible
from .token_texts import comments_of

_COMMENT = "it has a comment, which would be lost"
_NEEDS_LINES = "it has a comment, and has to stay on one line here"
_ANY_VALUES = "its variables of Grafana may have any values"
_TOO_LONG = "laid out, it would be longer than a query may be"
_NOT_BACK = "its variables of Grafana would not come back"
# The status where the width or the indentation is more than there may be.
_TOO_WIDE = 9
_LINE = re.compile(r"[^\n]*\n|[^\n]+")
# Lines that differ are compared where an edit has so many pairs of them, and those of a file have; others are shown as written anew.
_LARGEST_COMPARED, _MOST_COMPARED = 40_000, 4_000_000


def add_parser(subparsers: Any) -> None:
    parser = subparsers.add_parser("format", help="lay out the queries of rule files and dashboards", description=__doc__)
    add_arguments(parser)
    output = parser.add_mutually_exclusive_group()
    output.add_argument("--check", action="store_true", help="print the names of the files that would change")
    output.add_argument("--diff", action="store_true", help="print what would change")
    output.add_argument("--write", action="store_true", help="change the files")
    parser.add_argument("--width", type=lambda text: min(whole_number(text), sys.maxsize), help=f"columns of a line ({WIDTH})")
    parser.add_argument("--indent", type=whole_number, default=2, metavar="N", help="spaces of an indentation for people (2)")
    parser.add_argument("--style", choices=STYLES, help="how queries are laid out: people keeps comments, pretty does not (people)")
    meant = parser.add_mutually_exclusive_group()
    meant.add_argument("--keep-spelling", action="store_true", help="for people: numbers, durations and strings stay as they are written")
    parser.add_argument("--sort-matchers", action="store_true", help="for people: the matchers of a selector are sorted")
    meant.add_argument("--enforce", metavar="MATCHER", help="put a matcher, such as namespace='team-a', into every selector")
    parser.add_argument("--max-output", type=whole_number, metavar="N", help="the most bytes of a layout (4194304)")
    parser.set_defaults(run=_run, command="format")


@dataclass(frozen=True)
class Printer:
    """How a query is written."""

    width: int
    enforces: bool
    # The query that is to be there: the same, or one with a matcher in it.
    meant: Callable[[str], str]
    style: str = PEOPLE
    # For people: the spaces of an indentation, and whether the spelling stays.
    indent: int = 2
    keeps_spelling: bool = False
    sorts_matchers: bool = False

    def text(self, query: Query) -> Optional[str]:
        """The query as it is to be written; or nothing, where its variables would not come back."""
        if not query.variables:
            return self._fitted(self.meant(query.text), query.spelling)
        with suppress(promql.QueryError):
            return query.variables.come_back(self._fitted(query.laid_out, query.spelling))
        return None

    def _fitted(self, query: str, spelling: Spelling) -> str:
        """The query laid out on one line where its key is, or for people on several that are as wide as a block may be."""
        width = spelling.room(self.width)
        if self.style == PRETTY:
            # (which does not count the indentations in it)
            return self._laid_out(query, width)
        text = self._laid_out(query, spelling.room_of_lines(self.width))
        return text if "\n" in text or len(text.encode()) <= width else self._laid_out(query, width)

    def _laid_out(self, query: str, width: int) -> str:
        """The query in this style; for people, whose chains of operators are flat, where it would be longer than a query may be."""
        if self.style == PRETTY:
            with suppress(promql.LongOutputError), _short_output():
                return VERDICTS.made(width, query, partial(promql.pretty, width=width))
        return self._for_people(query, width)

    def _for_people(self, query: str, width: int) -> str:
        """The query, laid out for people. Where it has to stay on one line the width is the greatest that there is."""
        least, indent, keeps, sorts = min(width, promql.MAX_LINE), self.indent, self.keeps_spelling, self.sorts_matchers
        make = partial(promql.format, width=least, indent=indent, keep_spelling=keeps, sort_matchers=sorts)
        with _short_output():
            return VERDICTS.made((least, indent, keeps, sorts), query, make)

    def means(self, new: str, query: Query) -> bool:
        """Whether a text is what the query is to be."""
        read = query.variables.stand_in(new) if query.variables else new
        if read is None:
            return False
        # (what stands for a variable may be longer than the variable)
        with limited_to(max_len=promql.limits()["max_output"]):
            return VERDICTS.made("line", read, promql.canonical) == VERDICTS.made("line", self.meant(query.laid_out), promql.canonical)

    def why_left(self, query: Query) -> str:
        """Why a query is not formatted, or nothing."""
        left = query.skipped or self._why_kept(query)
        return left or (_ANY_VALUES if self.enforces and query.variables else "")

    def _why_kept(self, query: Query) -> str:
        """Why an accepted query is not formatted, or nothing."""
        if error := QueryChecker.error(query.text):
            raise error
        if query.kept or not comments_of(query.text):
            return query.kept
        if self.enforces or self.style == PRETTY:
            return _COMMENT
        # (a comment ends with its line)
        has_lines = query.spelling.room(self.width) < sys.maxsize or "\n" not in self._for_people(query.laid_out, sys.maxsize)
        return "" if has_lines else _NEEDS_LINES


def _short_output() -> ContextManager[None]:
    """Lays out no more than a query may have."""
    limits = promql.limits()
    return limited_to(max_output=min(limits["max_output"], limits["max_len"]))


def _enforcer(matcher: Optional[str]) -> Callable[[str], str]:
    """What puts a matcher into a query, where there is one."""
    if matcher is None:
        return str
    try:
        promql.enforce("up", matcher)
    except ValueError as error:
        raise FileError(f"--enforce: {visible(str(error))}", getattr(error, "number", 0) or Status.FAILED) from error
    return partial(VERDICTS.made, ("enforced", matcher), make=partial(promql.enforce, matcher=matcher))


def _run(arguments: argparse.Namespace) -> int:
    if arguments.output != "text" and not (arguments.check or arguments.diff or arguments.write):
        arguments.wrong("--output is for --check, --diff and --write: the text of a file is printed as it is")
    for name in ("keep_spelling", "sort_matchers"):
        if getattr(arguments, name) and arguments.style == PRETTY:
            arguments.wrong(f"--{name.replace('_', '-')} is for --style people")
    try:
        enforcer = _enforcer(arguments.enforce)
        if arguments.style != PRETTY:
            # (nothing is laid out within a width, or with an indentation, that the library does not take)
            promql.format("0", width=arguments.width or 0, indent=arguments.indent)
    except FileError as error:
        print(error, file=sys.stderr)
        return error.number
    except ValueError as error:
        print(f"--{error}", file=sys.stderr)
        return _TOO_WIDE
    VERDICTS.forget()
    targets = targets_of(arguments.files, arguments.dashboard)
    return work_on(targets, partial(_format_file, enforcer), arguments, goes_on=True, needs_queries=arguments.check)


def _format_file(enforcer: Callable[[str], str], arguments: argparse.Namespace, target: Target) -> Report:
    keeps, sorts = arguments.keep_spelling, arguments.sort_matchers
    style = PEOPLE if keeps or sorts else arguments.style
    printer = Printer(arguments.width, arguments.enforce is not None, enforcer, style, arguments.indent, keeps, sorts)
    messages: List[Message] = []
    out, queries = "", 0
    # (with the spelling everything stays that the target reads otherwise)
    promql.set_target("rules" if keeps else arguments.target)
    try:
        document = read_document(target, arguments.dashboard, bounds=bounds_of(arguments))
        messages += left_out(document, arguments.verbose)
        queries = len(document.queries)
        written = _written(document, printer, messages)
        if written is not None:
            changes = [(query, text) for query, text in written if text != query.original.rstrip("\n")]
            edits = [query.spelling.edit(text) for query, text in changes]
            out = _put_out(target.name, document, _formatted(document, printer, changes, edits), edits, arguments)
            if arguments.check or arguments.diff:
                source = document.source
                messages += [placed(source, query.whole("laid out otherwise"), ERROR, LAYOUT) for query, _ in changes]
            promql.set_target(arguments.target)
            messages += _warnings(document, written)
    except FileError as error:
        messages.append(of_error(target.name, error))
    return Report(Status.FINE, as_bytes(out), messages, queries)


def _warnings(document: Document, written: List[Tuple[Query, str]]) -> Iterator[Message]:
    """What the target rejects of queries as they are written: of each the first part, where the query had it, or else the whole query."""
    faults, source, refusals = [], document.source, lru_cache(maxsize=None)(_refusals)
    for query, text in written:
        read = query.variables.stand_in(text) if query.variables else text
        for message, *_ in refusals(read or query.text)[:1]:
            places = [(start, end) for said, start, end in refusals(query.text) if said == message] or [(0, len(query.text))]
            faults.append(query.fault(*places[0], f"warning: {message}")._replace(number=Status.REFUSED))
    return (placed(source, fault, WARNING, REJECTED, source.shown(fault)) for fault in listed(faults, "warnings"))


def _refusals(text: str) -> List[Tuple[str, int, int]]:
    """What the target says of each part of a text that it rejects, and where that is."""
    return [(it.message, it.start, it.end) for it in promql.differences(text) if it.is_rejected]


def same_as(changes: List[Tuple[Query, str]], printer_of: Callable[[Query], Printer]) -> SameQuery:
    """Tells whether a query is the same as another one, or is what one of these is to be."""
    queries = {(query.original, text): query for query, text in changes}

    def same_query(old: str, new: str) -> bool:
        query = queries.get((old, new.rstrip(BLANKS)))
        return old == new or query is not None and printer_of(query).means(new, query)

    return same_query


def _formatted(document: Document, printer: Printer, changes: List[Tuple[Query, str]], edits: List[Edit]) -> str:
    """The text of the file with its queries as they are to be."""
    if not changes:
        return document.source.text
    text = edited(document.source.text, edits)
    if not _reads_as(document, text, same_as(changes, lambda query: printer)):
        raise FileError(f"{document.source.name}: left as it is: formatted, it would not be read as the same", Status.UNFAITHFUL)
    return text


def _reads_as(document: Document, text: str, same_query: SameQuery) -> bool:
    try:
        return document.same(text, same_query)
    except BoundError:
        raise
    except (FileError, ValueError, RecursionError):
        return False


def _written(document: Document, printer: Printer, messages: List[Message]) -> Optional[List[Tuple[Query, str]]]:
    """The queries that are laid out, and how they are to be written; nothing where the file has faults. These, and what is to be said of
    other queries, are added to the messages."""
    source, written = document.source, []
    faults = [placed(source, fault, ERROR, RULE, source.shown(fault)) for fault in document.faults]
    over: List[Query] = []

    def complain(fault: Fault, code: str = KEPT) -> None:
        faults.append(placed(source, fault, ERROR, code, source.shown(fault)))

    for query in document.queries:
        if not query.skipped and not document.checker.admits(query.text):
            over.append(query)
            continue
        try:
            left = printer.why_left(query)
            text = None if left else printer.text(query)
        except promql.LongOutputError:
            text, left = None, _TOO_LONG
        except ValueError as error:
            # (an error is kept, and its frames are not)
            complain(document.checker.rejected(query, error.with_traceback(None)), REJECTED)
            continue
        except RecursionError:
            complain(query.whole("nested too deeply"))
            continue
        if text is not None and len(text.encode()) > promql.limits()["max_len"]:
            text, left = None, _TOO_LONG
        if text is None and printer.enforces:
            complain(query.whole(f"not enforced: {left}"))
        elif text is None:
            fault = query.whole(f"warning: left as it is: {left or _NOT_BACK}")
            kind = kind_of_skipped(query) if query.skipped else (WARNING, KEPT)
            messages.append(placed(source, fault, *kind, source.located(fault)))
        else:
            written.append((query, text))
    for fault in document.checker.left(over):
        complain(fault, REJECTED)
    messages += [it._replace(status=Status.FAILED) if it.status == Status.FOUND else it for it in in_order(faults)]
    return None if faults else written


def _put_out(name: str, document: Document, text: str, edits: List[Edit], arguments: argparse.Namespace) -> str:
    """Does with the new text of a file what the options say, and returns what is to be printed."""
    source = document.source
    changed = text != source.text
    if arguments.check or arguments.diff:
        said = f"{visible(source.name)}\n" if arguments.check else "".join(_diff(source.name, source.text, text, edits))
        return said if changed else ""
    if not arguments.write or name == STDIN:
        return source.mark + text
    if changed:
        write_file(source, (source.mark + text).encode())
    return ""


def _diff(name: str, old: str, new: str, edits: Sequence[Edit]) -> Iterator[str]:
    """What edits change, as `diff -u` prints it. The lines that an edit changes are compared by themselves, so that many take no longer."""
    lines, others = _LINE.findall(old), _LINE.findall(new)
    done, budget, matcher = (0, 0), Budget(_MOST_COMPARED), SequenceMatcher(None, "", "")
    matcher.opcodes = codes = []  # type: ignore[attr-defined]
    for i1, i2, j1, j2 in _changed_lines(lines, others, edits):
        codes += [("equal", done[0], i1, done[1], j1)] if i1 > done[0] else []
        pairs, done = (i2 - i1) * (j2 - j1), (i2, j2)
        is_short = pairs <= _LARGEST_COMPARED and budget.takes(pairs)
        found = SequenceMatcher(None, lines[i1:i2], others[j1:j2]).get_opcodes() if is_short else [("replace", 0, i2 - i1, 0, j2 - j1)]
        codes += [(tag, i1 + it[0], i1 + it[1], j1 + it[2], j1 + it[3]) for tag, *it in found]
    yield f"--- {name}\n+++ {name}\n"
    for group in matcher.get_grouped_opcodes():
        yield f"@@ -{_range(group[0][1], group[-1][2])} +{_range(group[0][3], group[-1][4])} @@\n"
        for tag, i1, i2, j1, j2 in group:
            signs = (" ", "") if tag == "equal" else ("-", "+")
            for line in [signs[0] + it for it in lines[i1:i2]] + [signs[1] + it for it in others[j1:j2] if signs[1]]:
                yield line if line.endswith("\n") else f"{line}\n\\ No newline at end of file\n"


def _range(first: int, end: int) -> str:
    """Lines as `diff -u` numbers them: of none that before them."""
    return f"{first + 1}" if end - first == 1 else f"{first + (end > first)},{end - first}"


def _changed_lines(lines: List[str], others: List[str], edits: Sequence[Edit]) -> Iterator[Tuple[int, int, int, int]]:
    """The lines that edits change, and those that are there instead, by the numbers of both; at last none, at the end."""
    ends, new_ends = ([*accumulate(map(len, it))] for it in (lines, others))
    parts: List[Tuple[int, int, int, int]] = []
    longer = 0
    for edit in sorted(edits):
        first, new_first = bisect_right(ends, edit.start), bisect_right(new_ends, edit.start + longer)
        longer += len(edit.text) - (edit.end - edit.start)
        last, new_last = bisect_right(ends, edit.end) + 1, bisect_right(new_ends, edit.end + longer) + 1
        if parts and first <= parts[-1][1]:
            first, _, new_first, _ = parts.pop()
        parts.append((first, min(last, len(lines)), new_first, min(new_last, len(others))))
    for i1, i2, j1, j2 in parts:
        while i1 < i2 and j1 < j2 and lines[i1] == others[j1]:
            i1, j1 = i1 + 1, j1 + 1
        while i1 < i2 and j1 < j2 and lines[i2 - 1] == others[j2 - 1]:
            i2, j2 = i2 - 1, j2 - 1
        yield i1, i2, j1, j2
    yield len(lines), len(lines), len(others), len(others)
