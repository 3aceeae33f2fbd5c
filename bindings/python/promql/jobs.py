"""Work on many files, by several processes where that is asked for: what is said of each comes out in their order."""

from __future__ import annotations

import argparse
import os
import pickle
import signal
import sys
from contextlib import suppress
from functools import partial
from itertools import chain
from typing import Any, Callable, Iterable, Iterator, List, NamedTuple, Optional, Sequence, Tuple

from .checked_queries import FileBounds
from .documents import Skipped, Status, Target
from .files import STDIN, FileError, counted, nested_too_deeply
from .messages import EMPTY, ERROR, OUTPUTS, SEVERITIES, SKIPPED, UNREAD, Message, Told, of_error, of_file, of_skipped
from .options import add_target, whole_number
from .team_settings import settings_read_anew, with_settings
from .terminal import add_color_argument, painted, visible, wants_colors, with_progress

_MOST_JOBS = 256
# For so many files one more process is worth its start.
_FILES_OF_JOB = 100
_JOBS = f"1, and 1 more for each {_FILES_OF_JOB} files, up to the number of processors"
_BOUNDS = {
    "max_file_patterns": "the most that the patterns of a file may measure together",
    "max_file_nodes": "the most nodes that the YAML of a file may have, or values that its JSON may have",
    "max_lint_tokens": "the most tokens of the queries of a file that the linter looks at",
    "max_exact_yaml": "the most characters of a file that ruamel.yaml reads, where libyaml does not",
}


class Report(NamedTuple):
    """What a command says of a file, how many queries it found there, and which of the messages make it fail."""

    status: Status
    out: bytes
    messages: Sequence[Message]
    queries: int = 0
    failures: Sequence[bool] = ()
    # What the command asks of the file for what it says of all files together.
    facts: Any = None

    def put_out(self, with_colors: bool = False) -> None:
        for message in self.messages:
            if message.text:
                shown = visible(message.text, "\t\n")
                print(painted(shown) if with_colors else shown, file=sys.stderr)
        sys.stdout.flush()
        sys.stdout.buffer.write(self.out)
        sys.stdout.buffer.flush()

    def judged(self, fail_on: Optional[str] = None, is_strict: bool = False) -> Report:
        """The same with the status that its messages ask for."""
        if not self.messages:
            return self
        failures = [_fails(message, fail_on, is_strict) for message in self.messages]
        failed = [message.status for message, fails in zip(self.messages, failures) if fails]
        return self._replace(status=Status.last([self.status, *failed]), failures=failures)


def _fails(message: Message, fail_on: Optional[str], is_strict: bool) -> bool:
    """Whether the command fails for a message: where nothing is said, for errors and all findings of the linter."""
    if message.code == SKIPPED:
        return False
    if is_strict and message.code == UNREAD:
        return True
    return message.is_at_least(fail_on) if fail_on else message.severity == ERROR or bool(message.name)


def as_bytes(text: str) -> bytes:
    """A text of files and their names, which may have bytes that are no text."""
    return text.encode("utf-8", "surrogateescape")


Work = Callable[[Target], Report]
# The same with the options for the file.
ConfiguredWork = Callable[[argparse.Namespace, Target], Report]
# What is said of all files together, of what is known of each, and by which name.
AtEnd = Callable[[List[Any]], Tuple[str, Report]]


def add_arguments(parser: Any, without_file: str = "without one it is read", jobs: str = _JOBS, outputs: Iterable[str] = OUTPUTS) -> None:
    """What the commands over files have in common."""
    files = "a rule file, a dashboard (.json), a folder with rule files, or - for standard input; "
    parser.add_argument("files", nargs="*", metavar="FILE", help=files + without_file)
    parser.add_argument("--dashboard", action="store_true", help="all files are dashboards")
    parser.add_argument("--jobs", type=partial(whole_number, least=1, most=_MOST_JOBS), metavar="N", help=f"so many processes ({jobs})")
    add_color_argument(parser)
    add_target(parser)
    for name, most in FileBounds()._asdict().items():
        parser.add_argument(f"--{name.replace('_', '-')}", type=whole_number, metavar="N", help=f"{_BOUNDS[name]} ({most})")
    parser.add_argument("--max-len", type=whole_number, metavar="N", help="the most bytes of a query (32768)")
    parser.add_argument("--max-patterns", type=whole_number, metavar="N", help="the most that patterns of a query may measure (16000)")
    parser.add_argument("--config", metavar="FILE", help="the file with settings, and no .promql.toml or pyproject.toml")
    parser.add_argument(
        "--output", choices=("text", *outputs), default="text", help="how messages are printed to standard output (text)"
    )
    parser.add_argument("--fail-on", choices=SEVERITIES[::-1], help="the least severe messages with which the command fails")
    parser.add_argument("--strict", action="store_true", help="fail where something that may be a query is not looked at")
    parser.add_argument("-v", "--verbose", action="store_true", help="name what is skipped in files and folders")


def bounds_of(arguments: argparse.Namespace) -> FileBounds:
    """The bounds of a file that the options say."""
    return FileBounds(*(getattr(arguments, name) for name in FileBounds._fields))


def _guarded(work: Work, target: Target) -> Report:
    """The report on a file; where the work fails in a way that it does not tell itself, that is the report, and the others go on."""
    try:
        return work(target)
    except FileError as error:
        message = of_error(target.name, error)
    except OSError as error:
        message = of_file(target.name, error.strerror or str(error))
    except RecursionError:
        message = of_error(target.name, nested_too_deeply(target.name))
    except MemoryError:
        message = of_file(target.name, "out of memory")
    except Exception as error:  # (a fault of this package, say: no other file is to lack its report for that)
        message = of_file(target.name, f"{type(error).__name__}: {error}")
    return Report(message.status, b"", [message])


def work_on(
    targets: List[Target], work: ConfiguredWork, arguments: argparse.Namespace, goes_on: bool = False, needs_queries: bool = True,
    at_end: Optional[AtEnd] = None
) -> Status:
    """Puts out what is said of each file and then of all together, and returns the status that counts. It can go on where the output
    cannot be written."""
    if not targets and (sys.stdin is None or sys.stdin.isatty()):
        arguments.wrong("no FILE is named")
    targets = targets or [Target(STDIN)]
    with_colors = wants_colors(arguments.color, sys.stderr)
    worst, queries = Status.FINE, 0
    told: List[Told] = []
    with settings_read_anew():
        reports = reports_of(targets, partial(_configured, work, arguments), arguments.jobs)
        each = with_progress([target.name for target in targets], reports, sys.stderr)
        facts: List[Any] = []
        for name, report in chain(each, (last(facts) for last in filter(None, [at_end]))):
            queries += report.queries
            facts += [report.facts] if report.facts is not None else []
            if arguments.output != "text":
                told.append(Told(name, report.messages, report.failures or report.judged().failures))
            worst = Status.last([worst, report.status, _put_out(name, report, arguments, with_colors, goes_on)])
    if worst == Status.FINE and not queries and needs_queries:
        worst = Status.EMPTY
        empty = Report(worst, b"", [no_query(len(targets))])
        told.append(Told("", empty.messages, [True]))
        empty.put_out(with_colors)
    if arguments.output != "text":
        made = OUTPUTS[arguments.output](arguments.command, told)
        sys.stdout.buffer.write(as_bytes(made))
        sys.stdout.buffer.flush()
    return worst


def facts_of(targets: List[Target], work: ConfiguredWork, arguments: argparse.Namespace) -> List[Any]:
    """What is known of each file before something is said of it. One with which nothing can be done tells nothing here."""
    with settings_read_anew():
        reports = reports_of(targets, partial(_configured, work, arguments), arguments.jobs)
        return [it.facts for it in reports if it.facts is not None]


def _put_out(name: str, report: Report, arguments: argparse.Namespace, with_colors: bool, goes_on: bool) -> Status:
    """Puts out what is said of a file; where it can go on without an output, it returns that this failed."""
    try:
        (report if arguments.output == "text" else report._replace(out=b"")).put_out(with_colors)
    except OSError as error:
        if not goes_on:
            raise
        print(visible(f"{name}: {error.strerror}"), file=sys.stderr)
        return Status.NOT_WRITTEN
    return Status.FINE


def _configured(work: ConfiguredWork, arguments: argparse.Namespace, target: Target) -> Report:
    """The report on a file, by the settings for it."""
    merged, settings = with_settings(arguments, target)
    try:
        if target.is_found and settings.is_left_out(target.name):
            raise Skipped(f"left out by {settings.file}", False)
        report = work(merged, target)
    except Skipped as skipped:
        report = Report(Status.FINE, b"", of_skipped(target.name, skipped, arguments.verbose))
    return report.judged(merged.fail_on, merged.strict)


def no_query(files: int) -> Message:
    """That a run found no query in so many files."""
    message = f"no query was found in {counted(files, 'file', 'files')}"
    return Message(ERROR, EMPTY, message, text=message)


def reports_of(targets: List[Target], work: Work, jobs: Optional[int]) -> Iterator[Report]:
    """What is said of each file, in their order."""
    jobs = min(jobs or 1 + len(targets) // _FILES_OF_JOB, len(targets), _MOST_JOBS if jobs else len(os.sched_getaffinity(0)))
    names = [target.name for target in targets]
    # (standard input is that of one process, and a file that is there twice is written once after the other)
    alone = jobs == 1 or STDIN in names or len(set(map(_file_of, names))) < len(names)
    guarded = partial(_guarded, work)
    return map(guarded, targets) if alone else _in_processes(targets, guarded, jobs)


def _file_of(name: str) -> Any:
    """Which file has this name, or the name where there is none."""
    with suppress(OSError):
        return os.stat(name)[1:3]
    return name


def _in_processes(targets: List[Target], work: Work, jobs: int) -> Iterator[Report]:
    """The reports of processes that take turns with the files, so that none is far ahead of what is put out."""
    readers: List[Any] = []
    children: List[int] = []
    try:
        for number in range(jobs):
            reader, writer = os.pipe()
            readers.append(open(reader, "rb"))
            children.append(_forked(targets[number::jobs], work, writer, readers))
            os.close(writer)
        for number, target in enumerate(targets):
            try:
                report: Report = pickle.load(readers[number % jobs])
            except (EOFError, OSError, pickle.UnpicklingError):
                report = Report(Status.FAILED, b"", [of_file(target.name, "the process that had this file ended")])
            yield report
    finally:
        for file, child in zip(readers, children):
            file.close()
            os.kill(child, signal.SIGTERM)
            os.waitpid(child, 0)


def _forked(targets: List[Target], work: Work, writer: int, readers: List[Any]) -> int:
    """Begins a process that sends its reports, and ends where nobody reads them any more. (Importing `multiprocessing` takes as long as
    checking a hundred files.)"""
    sys.stdout.flush()
    child = os.fork()
    if child:
        return child
    try:
        for reader in readers:
            reader.close()
        with open(writer, "wb") as file:
            for target in targets:
                pickle.dump(work(target), file)
                file.flush()
    finally:
        os._exit(0)
