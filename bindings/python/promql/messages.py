"""What the commands over files say: messages with a severity, a code and a place; and reports of these, as JSON, as SARIF 2.1.0, as annotations
of GitHub, and as JUnit has the results of tests."""

from __future__ import annotations

import json
import os
from typing import Any, Callable, Dict, Iterable, Iterator, List, NamedTuple, Optional, Sequence, Tuple

import promql

from .checked_queries import Document
from .documents import Skipped, Status
from .files import Fault, FileError, Source
from .options import PROGRAM
from .queries import Query
from .terminal import visible

# From the least severe on.
SEVERITIES = INFO, WARNING, ERROR = ("info", "warning", "error")
# The codes beside those of the linter: what is wrong with a rule or a file, what is not looked at and may be a query, what is left out
# since it is something else, a query that is laid out otherwise or stays as it is, a run that found no query, and a server.
RULE, FILE, UNREAD, SKIPPED, LAYOUT, KEPT, EMPTY, SERVER = "rule", "file", "unread", "skipped", "layout", "kept", "empty", "server"
REJECTED = "P001"
# Of a file so many places are named that are not looked at, and so many errors, warnings, and skipped queries.
MOST_UNREAD = 100
MOST_LISTED = 5_000
DESCRIPTIONS = {
    RULE: "A rule, a group or a file of rules has a fault beside its queries.",
    FILE: "A file cannot be read or written.",
    UNREAD: "What may be a query is not looked at.",
    SKIPPED: "What is no query of Prometheus is left out.",
    LAYOUT: "A query is laid out otherwise.",
    KEPT: "A query is not laid out.",
    EMPTY: "No query was found.",
    SERVER: "A server does not tell what it is asked for.",
    REJECTED: "The query is rejected.",
}
# The status for a message of these codes, where it has no number of its own: then queries are not looked at, for the patterns of a file.
_STATUSES = {REJECTED: Status.TOO_LARGE, LAYOUT: Status.NOT_FORMATTED}


class Message(NamedTuple):
    """A message about a file, or a part of it."""

    severity: str
    code: str
    message: str
    file: str = ""
    # The lines and columns of the part by their names in reports: they count from 1, and the end is not in the part.
    region: Optional[Dict[str, int]] = None
    # As it is printed to standard error; nothing where a command prints it otherwise, or not at all.
    text: str = ""
    # Of a finding of the linter: the name of its rule, what that looks for, and the changed query with the edits that make it.
    name: str = ""
    help: str = ""
    fix: Optional[Dict[str, Any]] = None
    # What the command ends with where the message makes it fail.
    status: Status = Status.FOUND

    def is_at_least(self, severity: str) -> bool:
        return SEVERITIES.index(self.severity) >= SEVERITIES.index(severity)

    def as_json(self) -> Dict[str, Any]:
        region = self.region or dict.fromkeys(("line", "column", "endLine", "endColumn"))
        said = {"code": self.code, "name": self.name or self.code, "severity": self.severity, "message": self.message}
        return {"file": self.file or None, **region, **said, "fix": self.fix}


def region_of(source: Source, start: int, end: int) -> Dict[str, int]:
    (line, column), (end_line, end_column) = source.lines.place(start), source.lines.place(end)
    return {"line": line, "column": column, "endLine": end_line, "endColumn": end_column}


def placed(source: Source, fault: Fault, severity: str, code: str, text: str = "") -> Message:
    """A message about a part of a file, which is printed as this text."""
    message = fault.message[len("warning: ") :] if fault.message.startswith("warning: ") else fault.message
    status = Status(fault.number) if fault.number and code == REJECTED else _STATUSES.get(code, Status.FOUND)
    return Message(severity, code, message, source.name, region_of(source, fault.start, fault.end), text, status=status)


def in_order(messages: Iterable[Message]) -> List[Message]:
    """The messages of a file by their places, and by what they say."""
    return sorted(messages, key=lambda it: (*(it.region or {}).values(), it.message))


def listed(faults: Iterable[Fault], what: str) -> List[Fault]:
    """The faults by their places, of which the first ones are named."""
    found = sorted(faults)
    if len(found) > MOST_LISTED:
        message = f"{'warning: ' * (what == 'warnings')}{len(found) - MOST_LISTED:,} more {what} from here on are not listed"
        found[MOST_LISTED:] = [found[MOST_LISTED]._replace(message=message)]
    return found


def of_file(name: str, message: str, severity: str = ERROR, code: str = FILE) -> Message:
    """A message about a whole file."""
    shown = f"{name}: {message}" if severity == ERROR else f"{name}: {severity}: {message}"
    return Message(severity, code, message, name, None, shown, status=Status.FAILED if severity == ERROR else Status.FOUND)


def of_server(message: str) -> Message:
    """Why a server does not tell what it is asked for."""
    return Message(ERROR, SERVER, message, text=message, status=Status.FAILED)


def of_error(name: str, error: FileError) -> Message:
    """Why nothing is done with a file."""
    region = region_of(error.source, *error.span) if error.source and error.span else None
    reason = error.reason[len(name) + 2 :] if error.reason.startswith(f"{name}: ") else error.reason
    return Message(ERROR, FILE, reason, name, region, str(error), status=Status(error.number))


def of_skipped(name: str, skipped: Skipped, is_verbose: bool) -> List[Message]:
    """What is said of a file of a folder that is not looked at."""
    if skipped.is_warning:
        return [of_file(name, f"skipped: {skipped.why}", WARNING, UNREAD)]
    return [Message(INFO, SKIPPED, skipped.why, name, None, f"{name}: skipped: {skipped.why}")] if is_verbose else []


def left_out(document: Document, is_verbose: bool) -> Iterator[Message]:
    """What is not looked at in a document beside queries that are skipped."""
    source = document.source
    for note in document.notes if is_verbose else ():
        fault = note._replace(message=f"skipped: {note.message}")
        yield placed(source, fault, INFO, SKIPPED, source.located(fault))
    for number, fault in enumerate(document.unread[:MOST_UNREAD], 1):
        if number == MOST_UNREAD < len(document.unread):
            fault = fault._replace(message=f"{fault.message}; nor are {len(document.unread) - MOST_UNREAD:,} more")
        yield placed(source, fault, WARNING, UNREAD, source.located(fault._replace(message=f"warning: {fault.message}")))


def skipped_queries(document: Document, is_printed: bool) -> Iterator[Message]:
    """The queries that are skipped. In text that is printed where it is asked for."""
    source = document.source
    skipped = [query for query in document.queries if query.skipped]
    for number, query in enumerate(skipped[:MOST_LISTED], 1):
        more = f"; so are {len(skipped) - MOST_LISTED:,} more" if number == MOST_LISTED < len(skipped) else ""
        fault = query.whole(f"skipped: {query.skipped}{more}")
        yield placed(source, fault, *kind_of_skipped(query), source.located(fault) if is_printed else "")


def summary_of(document: Document, *counts: str) -> str:
    """A line with what is in a file, and how much is said of it."""
    skipped = sum(1 for query in document.queries if query.skipped)
    parts = [document.summary(), *([f"{skipped} skipped"] if skipped else []), *counts]
    return f"{visible(document.source.name)}: {', '.join(parts)}\n"


def kind_of_skipped(query: Query) -> Tuple[str, str]:
    """The severity and the code of a query that is skipped."""
    return (WARNING, UNREAD) if query.is_unread else (INFO, SKIPPED)


_SCHEMA = "https://json.schemastore.org/sarif-2.1.0.json"
_LEVELS = {ERROR: "error", WARNING: "warning", INFO: "note"}
_COMMANDS = {ERROR: "error", WARNING: "warning", INFO: "notice"}
# The names of a region in the reports, and those of SARIF and of GitHub.
_REGION = ("line", "column", "endLine", "endColumn")
_SARIF_REGION = ("startLine", "startColumn", "endLine", "endColumn")
_GITHUB_REGION = ("line", "col", "endLine", "endColumn")
Json = Dict[str, Any]


class Told(NamedTuple):
    """What a command says of a file: its messages, and whether each of them makes it fail."""

    file: str
    messages: Sequence[Message]
    failures: Sequence[bool]


Output = Callable[[str, List[Told]], str]


def _messages(told: List[Told]) -> List[Message]:
    return [message for it in told for message in it.messages]


def as_json(command: str, told: List[Told]) -> str:
    """A list of objects: the places are lines and columns from 1, a column is a character, and the end is not in the part."""
    return json.dumps([message.as_json() for message in _messages(told)], indent=2) + "\n"


# ---- SARIF


def as_sarif(command: str, told: List[Told]) -> str:
    """A run of the command with these messages."""
    messages = _messages(told)
    codes = sorted({message.code for message in messages})
    kinds = {message.code: message for message in reversed(messages)}
    driver = {"name": f"{PROGRAM} {command}", "version": promql.version(), "rules": [_sarif_rule(kinds[code]) for code in codes]}
    results = [_sarif_result(message, codes.index(message.code)) for message in messages]
    is_done = not any(message.code == FILE for message in messages)
    run = {
        "tool": {"driver": driver}, "invocations": [{"executionSuccessful": is_done}], "columnKind": "unicodeCodePoints",
        "results": results,
    }
    return json.dumps({"$schema": _SCHEMA, "version": "2.1.0", "runs": [run]}, indent=2) + "\n"


def _sarif_rule(message: Message) -> Json:
    return {
        "id": message.code, "name": message.name or message.code,
        "shortDescription": {"text": message.help or DESCRIPTIONS[message.code]},
        "defaultConfiguration": {"level": _LEVELS[message.severity]},
    }


def _sarif_result(message: Message, index: int) -> Json:
    result: Json = {
        "ruleId": message.code,
        "ruleIndex": index,
        "level": _LEVELS[message.severity],
        "message": {"text": message.message},
    }
    if not message.file:
        return result
    from urllib.parse import quote
    location: Json = {"uri": quote(os.fsencode(message.file))}
    place: Json = {"artifactLocation": location}
    if message.region:
        place["region"] = _renamed(message.region, _SARIF_REGION)
    result["locations"] = [{"physicalLocation": place}]
    if message.fix and message.fix["edits"]:
        edits = [(_renamed(edit, _SARIF_REGION), edit["text"]) for edit in message.fix["edits"]]
        replacements = [{"deletedRegion": region, "insertedContent": {"text": text}} for region, text in edits]
        result["fixes"] = [{"artifactChanges": [{"artifactLocation": location, "replacements": replacements}]}]
    return result


def _renamed(region: Json, names: Sequence[str]) -> Json:
    return {name: region[key] for key, name in zip(_REGION, names)}


# ---- GitHub


def as_github(command: str, told: List[Told]) -> str:
    """A line for each message, of which GitHub makes an annotation of the file."""
    return "".join(f"{line}\n" for message in _messages(told) for line in _github(message))


def _github(message: Message) -> Iterator[str]:
    properties = {"file": message.file} if message.file else {}
    properties.update({key: str(at) for key, at in _renamed(message.region, _GITHUB_REGION).items()} if message.region else {})
    properties["title"] = f"{message.code} {message.name}".strip()
    shown = ",".join(f"{key}={_github_text(value, ':,')}" for key, value in properties.items())
    yield f"::{_COMMANDS[message.severity]} {shown}::{_github_text(message.message)}"


def _github_text(text: str, others: str = "") -> str:
    """A text in which what a command of GitHub is made of is escaped, and what a terminal obeys."""
    text = visible(text.replace("%", "%25").replace("\r", "%0D").replace("\n", "%0A"))
    return "".join(f"%{ord(it):02X}" if it in others else it for it in text)


# ---- JUnit


def as_junit(command: str, told: List[Told]) -> str:
    """A test of each file, and one of each message that makes it fail."""
    cases = [case for it in told for case in _cases(it)]
    failed, broken = (sum(f"<{kind} " in case for case in cases) for kind in ("failure", "error"))
    counts = f'tests="{len(cases)}" failures="{failed}" errors="{broken}"'
    suite = f'  <testsuite name="{PROGRAM} {command}" {counts}>\n{"".join(cases)}  </testsuite>\n'
    return f'<?xml version="1.0" encoding="UTF-8"?>\n<testsuites {counts}>\n{suite}</testsuites>\n'


def _cases(told: Told) -> Iterator[str]:
    from html import escape
    if not any(told.failures):
        said = "".join(f"      <system-out>{escape(visible(_with_place(it)), False)}</system-out>\n" for it in told.messages)
        yield _case(told.file, told.file, said)
    for message, fails in zip(told.messages, told.failures):
        if fails:
            kind = "error" if message.code == FILE else "failure"
            text = visible(_with_place(message))
            about = f"type={_attribute(message.code)} message={_attribute(message.message)}"
            yield _case(f"{_with_place(message, '')} {message.code}", message.file or told.file, f"      <{kind} {about}>{escape(text, False)}</{kind}>\n")


def _case(name: str, file: str, content: str) -> str:
    start = f"    <testcase name={_attribute(name)} classname={_attribute(file)} file={_attribute(file)}"
    return f"{start}>\n{content}    </testcase>\n" if content else f"{start}/>\n"


def _attribute(text: str) -> str:
    from html import escape
    return f'"{escape(visible(text))}"'


def _with_place(message: Message, rest: str = ": {0.severity} {0.code}: {0.message}") -> str:
    place = f":{message.region['line']}:{message.region['column']}" if message.region else ""
    return message.file + place + rest.format(message)


OUTPUTS: Dict[str, Output] = {"json": as_json, "sarif": as_sarif, "github": as_github, "junit": as_junit}
