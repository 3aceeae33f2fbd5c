#!/usr/bin/env python3
"""Runs the rows through a binding, and compares what it gives with the stored answers of promql batch, byte by byte.

usage: bindings/rows.py c PROGRAM [THREADS]   through bindings/c/tests/test_promql.c, built as PROGRAM, or through those of
                                              rust/examples/rows and go/internal/rows
       bindings/rows.py python [THREADS]      through the package promql, where Python finds it
       bindings/rows.py write FILE [COUNT]    writes the calls of COUNT rows, spread evenly, or of all
Where THREADS are given, each makes all calls again beside the others, and is to get the same.

The rows are the lines of crates/promql/stdin with those of stdout. Each that asks for a query is printed in its mode, and
checked and explained; one that asks for a line is also printed by `canonical`, and in Python by `canonical_many`. Of those with a
matcher to enforce, each that asks for a line is one call, unless that line is too long for an output. A line that is no request is no
call, nor is one that asks about times, and both are left out; a line that is not UTF-8 is passed on as the query. What was expected at a syntax error comes from `explain`
alone. The last line is 'N passed, M failed'.

A file of calls has for each a line 'CALL MODE LEVEL WIDTH START END LENGTH' of numbers, and then so many bytes and a line feed. Of
those of a call that enforces, the last END are the matcher.
"""

import json
import os
import subprocess
import sys
import tempfile
import threading
from pathlib import Path
from typing import NamedTuple

ROOT = Path(__file__).resolve().parent.parent
sys.path.insert(0, str(ROOT / "bin"))
from checks import print_counts  # noqa: E402

RUN = ROOT / "crates" / "promql"
# As long as bindings/test.sh gives to a command.
SECONDS = int(os.environ.get("most", "240"))
# What the rows are run with: crates/promql/args.
MAX_LEN = 1_048_576
MAX_PATTERNS = 32_000
# The numbers of the calls in a file, and of the modes in promql.h.
PRINT, CANONICAL, CHECK, _, ENFORCE, _, _, EXPLAIN = range(8)
MODES = {"line": 0, "pretty": 1, "json": 2, "places": 3}
ACCEPTED = b'{"ok":""}'
SYNTAX = "invalid promql query"
# What promql batch says of a query with more than 512 levels, and of some that Prometheus takes, and what an explanation says in its place
# (docs/guide/errors.md; docs/reference/targets.md, "What the server accepts").
EXPLAINED = {
    "expression nested too deeply": "more than 512 levels: put parts of a long chain in parentheses, or split the query",
    "more than 38 significant digits": "more than 38 significant digits; Prometheus rounds it to a floating-point number",
    "unexpected character inside brackets: '#'": (
        "unexpected character inside brackets: '#'; Prometheus takes a comment there: write it after the bracket"
    ),
    "unknown function with name 'holt_winters'": (
        "unknown function with name 'holt_winters'; Prometheus 2 has it: write double_exponential_smoothing, its name in Prometheus 3"
    ),
    "no @ modifiers allowed before range": "no @ modifiers allowed before range; Prometheus takes it: write the range first",
}
IN_SHORT = {explained: short for short, explained in EXPLAINED.items()}

sys.setrecursionlimit(100_000)  # JSON of high trees


class Call(NamedTuple):
    """A call with the answer that is wanted, as promql batch writes it."""

    place: str
    call: int
    mode: str
    level: int
    width: int
    query: bytes
    wanted: bytes
    matcher: bytes = b""

    def written(self):
        """The call as a file has it."""
        text = self.query + self.matcher
        numbers = f"{self.call} {MODES[self.mode]} {self.level} {self.width} 0 {len(self.matcher)} {len(text)}\n"
        return numbers.encode() + text + b"\n"


class Answer(NamedTuple):
    status: int
    start: int
    end: int
    line: int
    column: int
    text: bytes

    def reply(self, call, mode):
        """The answer as promql batch writes it."""
        if call == EXPLAIN and self.status == 0:
            return in_short(json.loads(self.text)) if self.text else ACCEPTED
        if self.status == 0:
            return b'{"ok":%s}' % (self.text if mode in ("json", "places") else compact(self.text.decode()))
        members = {"code": self.status, "error": self.text.decode()}
        if self.status in (4, 14):
            members.update(start=self.start, end=self.end, line=self.line, column=self.column)
        elif (self.start, self.end, self.line, self.column) != (0, 0, 0, 0):
            return b"an error without a place has one"
        return compact(members)


def compact(value):
    """JSON without spaces, its keys in order."""
    return json.dumps(value, ensure_ascii=False, separators=(",", ":"), sort_keys=True).encode()


def without_expected(reply):
    """An answer of promql batch without what was expected, and found, at a syntax error."""
    answer = json.loads(reply)
    if "expected" not in answer:
        return reply
    return compact({name: value for name, value in answer.items() if name not in ("expected", "found")})


def without_id(reply):
    """An answer of promql batch without the id of its request."""
    if not reply.startswith(b'{"id":'):
        return reply
    return compact({name: value for name, value in json.loads(reply).items() if name != "id"})


def without_warning(reply):
    """An answer of promql batch without what the target rejects of the line: the library does not warn."""
    if b'"warning":' not in reply:
        return reply
    return compact({name: value for name, value in json.loads(reply).items() if name != "warning"})


def in_short(told):
    """An explanation as promql batch answers its query: without what the message says beside `expected` and `found`, or what to write."""
    if told["error"] in EXPLAINED:
        return b"an explanation does not say what to write"
    if told["error"] in IN_SHORT:
        told = {**told, "error": IN_SHORT[told["error"]]}
    if "expected" in told:
        *firsts, last = told["expected"]
        names = f"{', '.join(firsts)} or {last}" if firsts else last
        said = f"unexpected {told['found']}, expected {names}"
        if told["error"] == said or told["error"].startswith(f"{said}; "):
            told = {**told, "error": SYNTAX}
    return compact(told)


def calls_of_row(place, asked, answer):
    """Yields the calls for a line of standard input, which promql batch answers so."""
    answer = without_warning(without_id(answer))
    reply = without_expected(answer)
    code = json.loads(reply).get("code", 0)
    if code == 7:
        return
    mode, level, width, query, matcher = "line", 0, 100, asked, None
    if code != 3:
        value = json.loads(asked)
        if isinstance(value, dict):
            if "times" in value:
                return
            mode = "places" if value.get("places") else value.get("mode", mode)
            level = value.get("level", level)
            width = value.get("width", width)
            matcher = value.get("enforce")
            value = value["query"]
        query = value.encode()
    if matcher is not None:
        # (a batch measures the line as an output, and the library as a query)
        if mode == "line" and code != 18:
            yield Call(place, ENFORCE, mode, level, width, query, reply, matcher.encode())
        return
    yield Call(place, PRINT, mode, level, width, query, reply)
    if mode == "line":
        yield Call(place, CANONICAL, mode, 0, 0, query, reply)
    is_rejected = code in (3, 4, 14)
    yield Call(place, CHECK, "line", 0, 0, query, reply if is_rejected else ACCEPTED)
    yield Call(place, EXPLAIN, "json", 0, 0, query, answer if is_rejected else ACCEPTED)


def all_calls():
    asked, replies = ((RUN / name).read_bytes().split(b"\n")[:-1] for name in ("stdin", "stdout"))
    assert len(asked) == len(replies)
    for number, (line, reply) in enumerate(zip(asked, replies), 1):
        yield from calls_of_row(f"crates/promql/stdin:{number}", line, reply)


def write_calls(calls, path):
    path.write_bytes(b"".join(it.written() for it in calls))


def answers_of(output):
    """Reads what `test_promql rows` prints."""
    at = 0
    while at < len(output):
        end = output.index(b"\n", at)
        *numbers, length = map(int, output[at:end].split())
        yield Answer(*numbers, output[end + 1 : end + 1 + length])
        at = end + length + 2


def compare(calls, answers):
    """Prints each call whose answer is not the one that is wanted. Returns how many there are."""
    failed = 0
    for call, answer in zip(calls, answers):
        found = answer.reply(call.call, call.mode)
        if found != call.wanted:
            failed += 1
            print(f"FAILED {call.place}, call {call.call}: wanted {call.wanted[:500]}, got {found[:500]}")
    return failed


def run_c(program, threads):
    calls = list(all_calls())
    with tempfile.TemporaryDirectory() as folder:
        path = Path(folder) / "calls"
        write_calls(calls, path)
        ran = subprocess.run([program, "rows", path, str(threads)], stdout=subprocess.PIPE, timeout=SECONDS)
    answers = list(answers_of(ran.stdout))
    failed = compare(calls, answers)
    if ran.returncode or len(answers) != len(calls):
        failed += 1
        print(f"FAILED {program}: status {ran.returncode}, {len(answers)} answers to {len(calls)} calls")
    return len(calls) - failed, failed


NOT_UTF8 = Answer(3, 0, 0, 0, 0, b"input is not UTF-8")


def error_answer(error):
    """The answer of a query that raises this error."""
    import promql

    start, end = (len(error.query[:at].encode()) for at in (error.start, error.end))
    status = 14 if isinstance(error, promql.TooLargeError) else 4
    return Answer(status, start, end, error.line, error.column, error.reason.encode())


def explanation(query):
    """What the package says of a query, as the library has it: nothing where it is accepted."""
    import promql

    try:
        promql.check(query)
        return Answer(0, 0, 0, 0, 0, b"")
    except promql.QueryError as error:
        told = error_answer(error)
        members = {"code": told.status, "start": told.start, "end": told.end, "line": told.line, "column": told.column}
        if error.expected:
            members.update(expected=error.expected, found=error.found)
        return Answer(0, 0, 0, 0, 0, compact({**members, "error": error.message}))


def with_byte_places(form, query):
    """A form of the package with places, which these are in bytes."""
    if isinstance(form, list):
        return [with_byte_places(it, query) for it in form]
    if not isinstance(form, dict):
        return form
    places = {name: len(query[: form[name]].encode()) for name in ("start", "end") if name in form}
    return {**{name: with_byte_places(it, query) for name, it in form.items()}, **places}


def python_answer(call):
    """Makes the call by the public functions of the package, and returns its answer as that of the library."""
    import promql

    query = call.query.decode(errors="surrogateescape")
    try:
        if call.call == EXPLAIN:
            return explanation(query)
        if call.call == CHECK:
            promql.check(query)
            text = ""
        elif call.call == ENFORCE:
            text = promql.enforce(query, call.matcher.decode())
        elif call.call == CANONICAL or call.mode == "line":
            text = promql.canonical(query)
        elif call.mode == "pretty":
            text = promql.pretty(query, width=call.width, level=call.level)
        elif call.mode == "places":
            text = compact(with_byte_places(promql.parse(query, places=True), query)).decode()
        else:
            text = compact(promql.parse(query)).decode()
        return Answer(0, 0, 0, 0, 0, text.encode())
    except promql.QueryError as error:
        return error_answer(error)
    except promql.NumberTooWideError as error:
        return Answer(6, 0, 0, 0, 0, str(error).encode())
    except promql.MatcherError as error:
        return Answer(11, 0, 0, 0, 0, str(error).encode())
    except promql.BareInfoError as error:
        return Answer(13, 0, 0, 0, 0, str(error).encode())
    except promql.LargeEnforcedError as error:
        return Answer(16, 0, 0, 0, 0, str(error).encode())
    except promql.LongOutputError as error:
        return Answer(18, 0, 0, 0, 0, str(error).encode())
    except UnicodeEncodeError:
        return NOT_UTF8


def at_once(calls):
    """The answers of the calls of `canonical`, made by one call of `canonical_many`."""
    import promql

    queries = [call.query.decode(errors="surrogateescape") for call in calls]
    for line in promql.canonical_many(queries):
        if isinstance(line, promql.QueryError):
            yield error_answer(line)
        else:
            yield Answer(0, 0, 0, 0, 0, line.encode()) if isinstance(line, str) else NOT_UTF8


def run_python(threads):
    import promql

    promql.set_limits(max_len=MAX_LEN, max_patterns=MAX_PATTERNS)
    # (a query that is not enforced has no target in a batch)
    promql.set_target("rules")
    calls = list(all_calls())
    answers = [python_answer(it) for it in calls]
    failed = compare(calls, answers)
    lines = [it for it in calls if it.call == CANONICAL]
    failed += compare(lines, at_once(lines))
    different = []

    def repeat():
        different.extend(call.place for call, answer in zip(calls, answers) if python_answer(call) != answer)

    workers = [threading.Thread(target=repeat) for _ in range(threads)]
    for it in workers:
        it.start()
    for it in workers:
        it.join()
    for place in different:
        print(f"FAILED {place}: another answer in a thread")
    failed += len(different)
    return len(calls) - min(failed, len(calls)), failed


def main(words):
    if words[:1] == ["write"] and 2 <= len(words) <= 3:
        calls = list(all_calls())
        step = max(1, len(calls) // int(words[2])) if len(words) == 3 else 1
        write_calls(calls[::step], Path(words[1]))
        return 0
    if words[:1] == ["c"] and 2 <= len(words) <= 3:
        passed, failed = run_c(words[1], int(words[2]) if len(words) == 3 else 0)
    elif words[:1] == ["python"] and len(words) <= 2:
        passed, failed = run_python(int(words[1]) if len(words) == 2 else 0)
    else:
        sys.exit(__doc__)
    return print_counts(passed, failed)


if __name__ == "__main__":
    sys.exit(main(sys.argv[1:]))
