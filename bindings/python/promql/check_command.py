"""promql-rules check: says which queries of rule files and dashboards are rejected, and where."""

from __future__ import annotations

import argparse
from functools import partial
from importlib import import_module
from typing import Any, List, Sequence, Tuple

from .checked_queries import Document
from .documents import Status, Target, read_document, targets_of
from .files import Fault, counted
from .jobs import Report, add_arguments, as_bytes, bounds_of, work_on
from .messages import ERROR, REJECTED, RULE, WARNING, Message, in_order, left_out, listed, placed, skipped_queries, summary_of
from .options import add_server_arguments, whole_number
from .quick_rules import RulesInOrder
from .terminal import visible

# The module that asks a server, which needs the linter.
_LIVE = "promql.live_checks"


def add_parser(subparsers: Any) -> None:
    parser = subparsers.add_parser("check", help="check the queries of rule files and dashboards", description=__doc__)
    add_arguments(parser)
    text = "put VALUE in the place of a variable of dashboards, such as __rate_interval=5m"
    parser.add_argument("--variable", action="append", default=[], type=_variable, metavar="NAME=VALUE", help=text)
    parser.add_argument("--queries", action="store_true", help="check queries alone, and not names, labels, durations and templates")
    add_server_arguments(parser, "that is asked what the queries select there now")
    parser.add_argument("--max-series", type=whole_number, metavar="N", help="warn of a query that reads more series there")
    parser.add_argument("--max-samples", type=whole_number, metavar="N", help="the same of samples")
    parser.set_defaults(run=_run, command="check")


def _variable(text: str) -> Tuple[str, str]:
    name, sign, value = text.partition("=")
    if not sign or not name.isidentifier():
        raise argparse.ArgumentTypeError(f"not NAME=VALUE: {text!r}")
    return name, value


def _run(arguments: argparse.Namespace) -> int:
    at_end = None
    if arguments.prometheus is not None:
        # (what asks a server takes long to import)
        api = import_module(".prometheus_api", __package__).api_of(arguments)
        at_end = partial(import_module(_LIVE).live_report, api, arguments)
    return work_on(targets_of(arguments.files, arguments.dashboard), _check_file, arguments, at_end=at_end)


def rejections(document: Document, others: Sequence[Fault] = ()) -> Tuple[int, List[Message]]:
    """How many errors a file has with these others, and the messages."""
    rejected = {fault: REJECTED for fault in document.checker.faults(document.queries)}
    faults, source = {**dict.fromkeys((*document.faults, *others), RULE), **rejected}, document.source
    said = [placed(source, fault, ERROR, faults.get(fault, RULE), source.shown(fault)) for fault in listed(faults, "errors")]
    return len(faults), said


def _check_file(arguments: argparse.Namespace, target: Target) -> Report:
    document = read_document(target, arguments.dashboard, dict(arguments.variable), bounds_of(arguments), not arguments.prometheus)
    if isinstance(document, RulesInOrder):
        return Report(Status.FINE, as_bytes(f"{visible(document.source.name)}: {document.summary()}, no errors\n"), [], document.rule_count)
    others, warnings = ([], []) if arguments.queries else document.checks()
    source = document.source
    count, said = rejections(document, others)
    said += [placed(source, fault, WARNING, RULE, source.located(fault)) for fault in listed(warnings, "warnings")]
    facts, left = import_module(_LIVE).reads_of(document, arguments) if arguments.prometheus else (None, [])
    said = in_order([*said, *left, *left_out(document, arguments.verbose), *skipped_queries(document, True)])
    summary = summary_of(document, counted(count, "error", "errors"))
    status = Status.FAILED if left else Status.FINE
    return Report(status, as_bytes(summary), said, len(document.queries), facts=facts)
