"""promql-rules lint: says what is most likely not meant in queries of rule files and dashboards, or in queries that are given."""

from __future__ import annotations

import argparse
import os
from typing import Any, List, Tuple

from .checked_queries import Document, GivenQuery, QueryChecker
from .documents import Status, Target, read_document, targets_of
from .files import STDIN, BoundError, Source, counted, read_source, write_file
from .jobs import Report, add_arguments, as_bytes, bounds_of, facts_of, work_on
from .lint.file_findings import FileFinding, FileLinter, fault_of
from .lint.records import SharedRecords
from .lint.rule_places import recorded_rules
from .lint.table import RULES, Selection, help_of, name_of, unknown_words
from .messages import ERROR, RULE, UNREAD, Message, left_out, listed, placed, region_of, skipped_queries, summary_of
from .rule_files import RuleFile
from .terminal import visible


def add_parser(subparsers: Any) -> None:
    parser = subparsers.add_parser("lint", help="find what is most likely not meant in queries", description=__doc__)
    add_arguments(parser, "without one and without --query it is a query", "1")
    parser.add_argument("-q", "--query", action="append", default=[], metavar="QUERY", help="look at this query; may be there again")
    parser.add_argument("--select", action="append", default=[], type=_codes, metavar="CODES", help="look for these codes alone: P101,P2")
    parser.add_argument("--ignore", action="append", default=[], type=_codes, metavar="CODES", help="leave these codes out")
    parser.add_argument("--fix", action="store_true", help="change the files by what is safe; print queries that are given")
    parser.add_argument("--rules", action="store_true", help="print the codes of the rules, and end")
    parser.set_defaults(run=_run, command="lint", jobs=1)


def _codes(text: str) -> Tuple[str, ...]:
    words = tuple(word.strip() for word in text.split(",") if word.strip())
    unknown = unknown_words(words)
    if unknown or not words:
        raise argparse.ArgumentTypeError(f"no rule has a code that begins with {(unknown or [text])[0]!r}")
    return words


def _run(arguments: argparse.Namespace) -> int:
    if arguments.rules:
        return _print_rules()
    if arguments.fix and arguments.output != "text" and (arguments.query or STDIN in (arguments.files or [STDIN])):
        arguments.wrong("--fix prints queries and standard input with their fixes, and no other output")
    targets = [Target(f"<query {number}>", query=query) for number, query in enumerate(arguments.query, 1)]
    targets += targets_of(arguments.files, arguments.dashboard)
    files = [it.name for it in targets if it.query is None]
    # (standard input and pipes are read once, and what one file records is known when it is read)
    is_alone = len(set(files)) < 2 or any(it == STDIN or os.path.exists(it) and not os.path.isfile(it) for it in files)
    arguments.shared = None if is_alone else SharedRecords(facts_of(targets, _records_in, arguments))
    return work_on(targets, _lint_file, arguments, goes_on=arguments.fix)


def _records_in(arguments: argparse.Namespace, target: Target) -> Report:
    """What the rules of a file record, in a first look at it."""
    document = None if target.query is not None else read_document(target, arguments.dashboard, bounds=bounds_of(arguments))
    return Report(Status.FINE, b"", [], facts=(target.name, recorded_rules(document)) if isinstance(document, RuleFile) else None)


def _print_rules() -> int:
    for code in sorted(RULES):
        rule = RULES[code]
        asked = "" if rule.is_default else ", by --select alone"
        print(f"{code} {rule.name} ({rule.severity.value}{asked}): {help_of(code)}")
    return Status.FINE


def _read(arguments: argparse.Namespace, target: Target) -> Document:
    if target.query is not None:
        return GivenQuery(Source(target.name, target.query, ""), QueryChecker(bounds_of(arguments)))
    if target.name == STDIN and not arguments.files:
        return GivenQuery(read_source(STDIN), QueryChecker(bounds_of(arguments)))
    return read_document(target, arguments.dashboard, bounds=bounds_of(arguments))


def _lint_file(arguments: argparse.Namespace, target: Target) -> Report:
    selection = Selection(tuple(sum(arguments.select, ())), tuple(sum(arguments.ignore, ())), arguments.steps)
    document = _read(arguments, target)
    linter = FileLinter(document, selection, shared=arguments.shared)
    return _fix_file(arguments, target, linter, document) if arguments.fix else _report(arguments, linter, document, [])


def _fix_file(arguments: argparse.Namespace, target: Target, linter: FileLinter, document: Document) -> Report:
    """Writes the file, or prints it where it is none, and reports what is left. A file is read again, so a large one is not fixed."""
    most_nodes, nodes_left = document.checker.bounds.max_file_nodes, document.checker.nodes_left
    if nodes_left < most_nodes - most_nodes * 7 // 10:
        message = f"a file of more than {most_nodes * 7 // 10:,} nodes of YAML is not fixed (--max-file-nodes)"
        raise BoundError.of(document.source, 0, message)
    text, count = linter.fixed()
    source = document.source
    if isinstance(document, GivenQuery):
        source = source._replace(text=text)
        linter = linter.over(GivenQuery(source, document.checker.anew()))
        found = linter.findings()
        status = Status.FAILED if linter.left else Status.FINE
        messages = [_message(source, it)._replace(text=source.shown(fault_of(it))) for it in found]
        messages += _not_looked_at(source, linter)
        return Report(status, as_bytes(text if text.endswith("\n") else f"{text}\n"), messages, 1)
    if target.name == STDIN:
        return Report(Status.FINE, as_bytes(source.mark + text), [], len(document.queries))
    if not count:
        # (what is known of the rules of a file is known of it as it stays)
        return _report(arguments, linter, document, [])
    write_file(source, (source.mark + text).encode())
    fixed = linter.fixed_document
    return _report(arguments, linter.over(fixed), fixed, [counted(count, "query fixed", "queries fixed")])


def _report(arguments: argparse.Namespace, linter: FileLinter, document: Document, notes: List[str]) -> Report:
    source = document.source
    found = linter.findings()
    status = Status.FAILED if linter.left else Status.FINE
    messages = list(left_out(document, arguments.verbose))
    messages += [placed(source, fault, ERROR, RULE, source.shown(fault)) for fault in listed(document.faults, "errors")]
    messages += [*_not_looked_at(source, linter), *skipped_queries(document, arguments.verbose)]
    # (the findings themselves are printed to standard output)
    messages += [_message(source, it) for it in found]
    lines = [visible(source.shown(fault_of(it)), "\t\n") + "\n" for it in found]
    lines.append(summary_of(document, *notes, counted(len(found), "finding", "findings")))
    return Report(status, as_bytes("".join(lines)), messages, len(document.queries))


def _not_looked_at(source: Source, linter: FileLinter) -> List[Message]:
    return [placed(source, fault, ERROR, UNREAD, source.shown(fault)) for fault in listed(linter.left, "errors")]


def _message(source: Source, found: FileFinding) -> Message:
    finding, fix = found.finding, None
    if finding.fix:
        edits: List[Any] = [{**region_of(source, it.start, it.end), "text": it.text} for it in found.edits]
        fix = {"query": found.fixed_query, "edits": edits}
    region = region_of(source, found.start, found.end)
    about = name_of(finding.code), help_of(finding.code), fix
    return Message(finding.severity.value, finding.code, finding.message, source.name, region, "", *about)
