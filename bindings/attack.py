#!/usr/bin/env python3
"""Attacks on what takes texts of others, each within bounds of time and memory, and what they come to: docs/guide/security.md.

usage: bindings/attack.py            by a Python that finds the package promql and, for rule files, ruamel.yaml; with the programs of dist/
       bindings/attack.py --files N  large files for the tools for files, every fourth of them: from 0 to 3

Prints what is not tried here, and each attack that comes to something else than is documented. The last line is 'N passed, M failed'.
bindings/test.sh --attack calls this, and the attacks that are among the tests of the bindings. Servers listen on 127.0.0.1.
"""

import contextlib
import http.client
import itertools
import json
import math
import os
import resource
import signal
import socket
import subprocess
import sys
import tempfile
import time
from pathlib import Path
from typing import NamedTuple

ROOT = Path(__file__).resolve().parent.parent
sys.path.insert(0, str(ROOT / "bin"))
from checks import Checks, released  # noqa: E402

MATCHER = 'tenant="a"'
# What one attack may take: processor seconds, the same by the clock four times over, and MB of memory. (What has to take longer, where
# promql has no limits, is held against what a part of it takes on the same machine.)
SECONDS, MEMORY = 10, 512
TOO_DEEP, UNCLOSED = "expression nested too deeply", "unclosed left parenthesis"
# What the program and the page say in place of TOO_DEEP.
TOO_MANY_LEVELS = "more than 512 levels: "
TOO_LARGE, TOO_LONG = "patterns are too large", "query is too long"

checks = Checks()


def check(name, is_so, found):
    """Counts one thing that is checked, and says what was found where it fails."""
    checks.check(is_so, f"{name}: {str(found)[:500]}")


class Ran(NamedTuple):
    """How a process ended: its status, or the number of a signal below 0, what it wrote, and the processor seconds that it took."""

    status: int
    out: str
    err: str
    seconds: float = 0.0


def seconds_of_children():
    """The processor seconds of all processes that have ended, so far."""
    spent = resource.getrusage(resource.RUSAGE_CHILDREN)
    return spent.ru_utime + spent.ru_stime


def limits(seconds, memory, stack):
    """What a process does first, so that it takes no more than so much: seconds, MB and KiB."""

    def set_limits():
        resource.setrlimit(resource.RLIMIT_CPU, (seconds, seconds))
        resource.setrlimit(resource.RLIMIT_AS, (memory << 20, memory << 20))
        resource.setrlimit(resource.RLIMIT_STACK, (stack << 10, resource.getrlimit(resource.RLIMIT_STACK)[1]))

    return set_limits


def run(words, given="", seconds=SECONDS, memory=MEMORY, stack=8192):
    """Runs a process within these limits; one that does not end in time is killed, and its status is that."""
    spent = seconds_of_children()
    with subprocess.Popen(
        [str(word) for word in words],
        stdin=subprocess.PIPE,
        stdout=subprocess.PIPE,
        stderr=subprocess.PIPE,
        preexec_fn=limits(seconds, memory, stack),
    ) as process:
        try:
            out, err = process.communicate(given if isinstance(given, bytes) else given.encode(), timeout=4 * seconds)
        except subprocess.TimeoutExpired:
            process.kill()
            out, err = process.communicate()
        spent = seconds_of_children() - spent
        return Ran(process.returncode, out.decode(errors="replace"), err.decode(errors="replace"), spent)


# ---- queries that are dear

GROUPS = "(" * 248 + "b" + ")" * 248


def named_groups(size):
    """A pattern of so many bytes, of groups with names."""
    groups, length = [], 0
    while length < size:
        groups.append(f"(?P<n{len(groups)}>a)")
        length += len(groups[-1])
    return "".join(groups)


def matchers(count, pattern):
    return "{" + ",".join(f"l{number}=~`{pattern}`" for number in range(count)) + "}"


# Queries of which all programs say the same: the status, and what their message begins with.
QUERIES = {
    "510 parentheses": ("(" * 510 + "1" + ")" * 510, 0, ""),
    "512 parentheses": ("(" * 512 + "1" + ")" * 512, 4, TOO_DEEP),
    "30,000 parentheses": ("(" * 30_000, 4, UNCLOSED),
    "30,000 minus signs": ("-" * 30_000 + "1", 4, TOO_DEEP),
    "8,000 powers": ("1 ^ " * 8_000 + "1", 4, TOO_DEEP),
    "16,000 groups": ("{a=~`" + "(" * 16_000 + "b" + ")" * 16_000 + "`}", 4, "illegal regex for "),
    "16,000 classes": ("{a=~`" + "[" * 16_000 + "b" + "]" * 16_000 + "`}", 4, "illegal regex for "),
    "100,000 parentheses": ("(" * 100_000, 4, UNCLOSED),
    "100,000 minus signs": ("-" * 100_000 + "1", 4, TOO_DEEP),
    "100,000 powers": ("1 ^ " * 100_000 + "1", 4, TOO_DEEP),
    "248 groups": ("{a=~`" + GROUPS + "`}", 0, ""),
    "250 groups": ("{a=~`" + "(" * 250 + "b" + ")" * 250 + "`}", 4, "illegal regex for "),
    "100,000 groups": ("{a=~`" + "(" * 100_000 + "b" + ")" * 100_000 + "`}", 4, "illegal regex for "),
    "100,000 classes": ("{a=~`" + "[" * 100_000 + "b" + "]" * 100_000 + "`}", 4, "illegal regex for "),
    "groups in 511 calls": ("abs(" * 511 + "{a=~`" + GROUPS + "`}" + ")" * 511, 0, ""),
    "20 counts of a million": (matchers(20, "a{1000}{1000}"), 4, "illegal regex for a{1000}{1000}"),
    "one count of a thousand millions": (matchers(1, "((a{1000}){1000}){1000}"), 4, "illegal regex for "),
    "100,000 matchers": ("{" + ",".join(f'a{number}="1"' for number in range(100_000)) + "}", 0, ""),
}
# A pattern that is dear to compile, and how many of it a query has.
DEAR_PATTERN, MANY = r"\w{720}", 200
# Queries whose patterns are large together.
LARGE_PATTERNS = {
    "200 patterns of 720 letters": (matchers(MANY, DEAR_PATTERN), TOO_LARGE),
    "32 kB of groups with names": ("{a=~`" + named_groups(32_000) + "`}", TOO_LARGE),
    "249 kB of groups with names": ("{a=~`" + named_groups(248_900) + "`}", TOO_LONG),
}

# Queries of which it is dear to tell what was expected, since their beginnings are read once for each kind of token: what was
# expected, and how many seconds that may take, ten times what it takes.
REJECTED = {
    "26 patterns of other letters, and no right side": ("{" + r"a=~`(?i)\PL`," * 26 + "} +", "expression", 0.2),
    "8,190 sums, and no right side": ("f(" + "a+a," * 8_190 + "a)+", "expression", 2.5),
    "16,000 arguments, and a number": ("f(" + "1," * 16_000 + "1 1)", "operator", 2.5),
    "2,000 matchers, and a name": ("{" + 'a=~"",' * 2_000 + 'a="" a}', '"}"', 2.5),
}

# Lines of which a batch has a mebibyte, and how many seconds that may take, ten times what it takes.
LINES = {
    r"lines with the pattern \w{456}": (matchers(1, r"\w{456}"), 10),
    r"lines with 600 of \w": (matchers(1, r"\w" * 600), 10),
    r"lines with the pattern \pL": (matchers(1, r"\pL"), 60),
    "rejected lines": ("a+", 60),
}

PROMQL = released("promql")
# The subcommands that read one query, with their words.
SUBCOMMANDS = (("line",), ("pretty",), ("json",), ("enforce", MATCHER), ("check",))


def without_place(ran):
    """The end of a subcommand, whose message of a rejected query begins with the place."""
    return ran._replace(err=ran.err.partition(": ")[2] if ran.status in (4, 14) else ran.err)


def program_runs(query, **bounds):
    """The ends of each subcommand on this query, by their names, without the place of the error."""
    for words in SUBCOMMANDS:
        yield words[0], without_place(run([PROMQL, *words], query, **bounds))
    for request in (query, {"query": query, "enforce": MATCHER}):
        ran = run([PROMQL, "batch", "line"], json.dumps(request) + "\n", **bounds)
        answer = json.loads(ran.out) if ran.status in (0, 4) else {}
        yield "batch", Ran(answer.get("code", ran.status), ran.out, answer.get("error", ran.err))


def knows_limits():
    """Whether the program knows a limit on patterns."""
    return "--max-patterns" in run([PROMQL, "check", "--help"]).out


WITH_LIMITS = ("enforce", "check", "batch")
# Those that these subcommands reject before they read them.
OVER_LIMITS = {
    "16,000 groups": TOO_LARGE,
    "16,000 classes": TOO_LARGE,
    "100,000 parentheses": TOO_LONG,
    "100,000 minus signs": TOO_LONG,
    "100,000 powers": TOO_LONG,
    "100,000 groups": TOO_LONG,
    "100,000 classes": TOO_LONG,
    "20 counts of a million": TOO_LARGE,
    "one count of a thousand millions": TOO_LARGE,
    "100,000 matchers": TOO_LONG,
}


def attack_by_queries():
    for name, (query, status, message) in QUERIES.items():
        for program, ran in program_runs(query):
            if name in OVER_LIMITS and program in WITH_LIMITS:
                is_so = ran.status == 14 and OVER_LIMITS[name] in ran.err
            else:
                said = TOO_MANY_LEVELS if message == TOO_DEEP and program != "batch" else message
                is_so = ran.status == status and ran.err.startswith(said)
            check(f"{name}, {program}", is_so, (ran.status, ran.err))
    attack_by_rejected_queries()
    if not knows_limits():
        print("not tried: queries of large patterns: the programs of dist/ know no --max-patterns")
        return
    attack_by_patterns()
    attack_by_many_lines()


def attack_by_rejected_queries():
    """Each says what was expected, in a check, in a batch and in the library, which a process calls."""
    explain = [sys.executable, "-c", EXPLAINING]
    for name, (query, expected, seconds) in REJECTED.items():
        for words, given in (
            ([PROMQL, "check"], query),
            ([PROMQL, "batch", "line"], json.dumps(query) + "\n"),
            (explain, query),
        ):
            ran = run(words, given, seconds=math.ceil(seconds))
            told = json.dumps(expected)[1:-1] if words[1] == "batch" else expected
            is_so = ran.status == 4 and told in ran.out + ran.err and ran.seconds < seconds + (0.2 if words is explain else 0)
            check(f"{name}, {Path(words[0]).name} {words[1]}", is_so, (ran.status, ran.out[-300:], ran.err[-300:], ran.seconds))


def attack_by_many_lines():
    """A mebibyte of a batch's lines. A pattern within the limits is not compiled, so one that is dear to compile is as cheap as others."""
    for name, (query, seconds) in LINES.items():
        line = json.dumps(query) + "\n"
        count = 2**20 // len(line)
        ran = run([PROMQL, "batch", "line"], line * count, seconds=seconds)
        is_so = ran.status in (0, 4) and ran.out.count("\n") == count
        check(f"a mebibyte of {name}, {PROMQL}", is_so, (ran.status, ran.out[-100:], ran.err[-300:], ran.seconds))


def attack_by_patterns():
    """Programs with limits reject these. promql has none and reads them, in the memory that one of their patterns takes."""
    one = [run([PROMQL, "line"], matchers(1, DEAR_PATTERN)).seconds for _ in range(5)]
    allowed = SECONDS + 2 * MANY * sum(one) / len(one)
    for name, (query, said) in LARGE_PATTERNS.items():
        for program, ran in program_runs(query, seconds=math.ceil(allowed), memory=128):
            if program in WITH_LIMITS:
                is_so = ran.status == 14 and said in ran.err and ran.seconds < SECONDS
            else:
                is_so = ran.status == 0 and ran.seconds < allowed
            check(f"{name}, {program}", is_so, (ran.status, ran.err, ran.seconds, allowed))


# ---- trees that are given as JSON

# A process that prints the tree whose JSON form is on its standard input, by the library and as a node with one matcher so often, and
# prints the seconds of the longer call with what both say.
TREES = """
import sys, time, promql, promql.tree as tree
form, count, said, longest = sys.stdin.read(), int(sys.argv[1]), [], 0.0
def text():
    answer = promql._caller.print_tree(form, 0, 0, 0, 0)
    if isinstance(answer, str):
        return answer
    raise promql._tree_error(answer)
def node():
    return str(tree.Selector("a", (tree.Matcher("b", "=~", r"\\w{720}"),) * count))
for call in text, node:
    begun = time.process_time()
    try:
        said.append(call())
    except (promql.Error, tree.NodeError) as error:
        said.append(str(error.__cause__ or error))
    longest = max(longest, time.process_time() - begun)
print(longest, *said, sep="\\n")
"""
# What a tree of others may take: processor seconds. One of these patterns alone takes longer, in all of a process.
TREE_SECONDS = 1.0
# As many matchers with a dear pattern as a form of 4,495 bytes had, once for each call.
FORM_MATCHERS = 100


def form_of_selector(count, pattern):
    """The JSON form of a selector with so many matchers of a pattern."""
    matchers_of = [{"name": "b", "type": "=~", "value": pattern}] * count
    members = {"matchers": matchers_of, "name": "a", "offset": 0, "startOrEnd": None, "timestamp": None, "type": "vectorSelector"}
    return json.dumps(members, separators=(",", ":"))


def knows_tree_limits():
    """Whether the library of dist/ has a limit of the length of a tree."""
    return b"promql_set_max_tree" in released("libpromql.so").read_bytes()


def attack_by_trees():
    """Trees that are dear to compile or long: each is rejected before a pattern of it is compiled."""
    if not knows_tree_limits():
        print("not tried: large trees: the library of dist/ has no promql_set_max_tree")
        return
    forms = {
        "a tree with a pattern of 720 letters": (form_of_selector(1, DEAR_PATTERN), TOO_LARGE),
        f"a tree with {FORM_MATCHERS} of them": (form_of_selector(FORM_MATCHERS, DEAR_PATTERN), TOO_LARGE),
        f"a tree with {MANY} of them": (form_of_selector(MANY, DEAR_PATTERN), TOO_LARGE),
        f"no tree, with {MANY} of them": (json.dumps([{"type": "=~", "value": DEAR_PATTERN}] * MANY), TOO_LARGE),
        "no tree, with them in 120 lists": ("[" * 120 + form_of_selector(MANY, DEAR_PATTERN) + "]" * 120, TOO_LARGE),
        "5 MB of lists": ("[" + "[]," * 1_700_000 + "[]]", "tree is too long"),
        "5 MB of no JSON": ("[" * 5_000_000, "tree is too long"),
        "4 MB of brackets": ("[" * 4_000_000, "not JSON"),
        "4 MB of lists": ("[" + "[]," * 1_390_000 + "[]]", "$: an object"),
    }
    for name, (form, said) in forms.items():
        ran = run([sys.executable, "-c", TREES, MANY], form)
        longest, *lines = ran.out.splitlines() or ["inf"]
        is_so = ran.status == 0 and float(longest) < TREE_SECONDS and len(lines) == 2
        check(name, is_so and lines[0].startswith(said) and lines[1].startswith(TOO_LARGE), (ran.status, ran.out, ran.err))


# ---- stacks

# A process that has the library explain the query on its standard input, and ends as a check does.
EXPLAINING = """
import sys, promql
try:
    promql.check(sys.stdin.read())
except promql.QueryError as error:
    print(error.message)
    sys.exit(4)
"""

# A process that calls the library with the query on its standard input, in its first thread and in another.
CALLS = """
import sys, threading, promql
query, said = sys.stdin.read(), []
def call():
    for function in promql.canonical, promql.check, promql.pretty, promql.collect, lambda query: promql.enforce(query, 'tenant="a"'):
        try:
            function(query)
            said.append("fine")
        except promql.Error as error:
            said.append(type(error).__name__)
call()
thread = threading.Thread(target=call)
thread.start()
thread.join()
print(*sorted(set(said)))
"""


def attack_by_stacks():
    """The programs with 2 MB of stack, and the library with more and less than it asks for."""
    for name in ("510 parentheses", "248 groups", "250 groups", "groups in 511 calls"):
        query, status, _ = QUERIES[name]
        for program, ran in program_runs(query, stack=2048):
            check(f"{name}, {program} with a stack of 2 MB", ran.status == status, (ran.status, ran.err))
        for stack in (256, 512, 1024, 2048):
            ran = run([sys.executable, "-c", CALLS], query, stack=stack)
            said = "SmallStackError" if stack < 1280 else "QueryError" if status else "fine"
            check(f"{name}, the library with a stack of {stack} KiB", ran[:2] == (0, f"{said}\n"), ran)


# ---- outputs

# What a shell does with the streams of a program, and the status of `line`, of other subcommands with an output, and of `check`, which has
# none.
STREAMS = {
    "<&-": (2, 2, 2),
    ">&-": (5, 5, 0),
    ">/dev/full": (5, 5, 0),
    "2>&-": (0, 0, 0),
    "2>/dev/full": (0, 0, 0),
    "| true": (5, 141, 0),
}


def attack_outputs():
    """Subcommands without an input, with outputs that are closed or full, and before a reader that is gone."""
    for name, *words in (("line",), ("batch", "line"), ("enforce", MATCHER), ("check",)):
        for stream, statuses in STREAMS.items():
            # (the reader is gone before the program is given its query)
            wait = "sleep 0.2; " if "|" in stream else ""
            script = f'{{ {wait}exec "$0" "$@"; }} {stream}; exit ${{PIPESTATUS[0]}}'
            ran = run(["bash", "-c", script, PROMQL, name, *words], '"1"')
            wanted = statuses[0 if name == "line" else 2 if name == "check" else 1]
            check(f"{name} {stream}", ran.status == wanted and (wanted != 141 or not ran.err), ran)


# ---- control characters

# C0 and C1, the end of a line and of a title of a terminal; and marks of writing direction.
CONTROLS = {
    "control characters": "\x1b\x00\x01\x07\x08\x0b\x0c\r\x7f\x80\x85\x9b\x9d",
    "marks of writing direction": "\u202e\u200e\u200f\u202a\u2066\u2069",
}


def attack_terminals():
    """A report has no character that a terminal obeys."""
    for kind, characters in CONTROLS.items():
        if characters[0] in run([PROMQL, "check"], f"foo {characters[0]}(").err:
            print(f"not tried: {kind}: the program of dist/ shows them as they are")
            continue
        for it in characters:
            for query in (f"foo {it}(", f'foo{{a="{it}"}} (', f"foo{{a=~`({it}`}}", f"foo # {it}\n(", f"nosuch{it}(1)"):
                ran = run([PROMQL, "check"], query)
                is_so = ran.status == 4 and it not in ran.err + ran.out
                check(f"a report about {query!r}", is_so, (ran.status, ran.err))


# ---- rule files and dashboards

RULE = "groups:\n- name: a\n  rules:\n"


def merges(count):
    """A mapping that merges nine times one that merges nine times another, and so on."""
    lines = [f"m{number}: &m{number} {{<<: [{', '.join([f'*m{number - 1}'] * 9)}]}}" for number in range(1, count)]
    return "\n".join(["m0: &m0 {a: b}", *lines, f"groups: [{{rules: [{{<<: *m{count - 1}, expr: up}}]}}]\n"])


def aliases(groups, rules):
    """So many groups, all aliases of one, with so many rules, all aliases of one."""
    return f"r: &r [&q {{expr: up}}{', *q' * (rules - 1)}]\ng: &g {{name: a, rules: *r}}\ngroups: [*g{', *g' * (groups - 1)}]\n"


def labels(count):
    """Rules whose labels merge nine times those of the rule before."""
    rules = ["  - {alert: A0, expr: up, labels: &m0 {l0: x}}\n"]
    for number in range(1, count):
        merged = ", ".join([f"*m{number - 1}"] * 9)
        rules.append(f"  - {{alert: A{number}, expr: up, labels: &m{number} {{<<: [{merged}], l{number}: x}}}}\n")
    return RULE + "".join(rules)


# What is in a file, and the status of `check --queries` and what it says; 4 and 14 are also those of `format`.
FILES = {
    "merges.yml": (merges(60), 0, "1 rule, no errors"),
    "aliases.yml": (aliases(5000, 5000), 2, "its aliases make more than 1,000,000 rules of it"),
    "rejected.yml": (RULE + "  - alert: B\n    expr: up ==\n" * 4000, 4, "4000 rules, 4000 errors"),
    "signs.yml": (RULE + "  - alert: B\n    expr: 'foo{a=\"" + "#" * 30_000 + "\"}'\n", 0, "1 rule, no errors"),
    "twice.yml": (RULE + "groups: []\n", 1, "`groups` is there twice"),
    "nested.yml": ("[" * 100_000, 2, "nested too deeply"),
    "groups.yml": (RULE + "  - alert: B\n    expr: '{a=~`" + "(" * 250 + "b" + ")" * 250 + "`}'\n", 4, "1 rule, 1 error"),
    "a" * 250 + ".yml": (RULE + "  - alert: B\n    expr: up==0\n", 0, "1 rule, no errors"),
    "digits.json": ('{"panels": [{"id": ' + "1" * 5000 + ', "targets": [{"expr": "up==0"}]}]}', 0, "1 query, no errors"),
    "nested.json": ("[" * 100_000, 2, "nested too deeply"),
    "variables.json": ('{"targets": [{"expr": "' + "$a + " * 100_000 + '"}]}', 0, "1 skipped, no errors"),
    "braces.json": ('{"targets": [{"expr": "' + "${" * 100_000 + '"}]}', 14, "1 query, 1 error"),
}
# The same of `check`.
CHECKED_FILES = {
    "labels.yml": (labels(60), 0, "60 rules, no errors"),
    "templates.yml": (RULE + "  - {alert: B, expr: up, annotations: {a: '{{ " + "(" * 100_000 + "'}}\n", 1, "1 rule, 1 error"),
    "parentheses.yml": (RULE + "  - {alert: B, expr: up, annotations: {a: '{{ " + "(" * 9000 + "1" + ")" * 9000 + " }}'}}\n", 1, "nested too"),
    "actions.yml": (RULE + "  - {alert: B, expr: up, annotations: {a: '" + "{{ 1 }}" * 14_000 + "'}}\n", 0, "no errors"),
    "more actions.yml": (RULE + "  - {alert: B, expr: up, annotations: {a: '" + "{{ 1 }}" * 30_000 + "'}}\n", 1, "not looked at"),
    "fields.yml": (RULE + "  - alert: B\n    expr: up\n    a: b\n" * 4000, 1, "4000 rules, 4000 errors"),
    "digits.yml": (RULE + f"  - {{alert: B, expr: up, for: {'9' * 5000}m}}\n", 1, "longer than 292 years"),
}


def check_file(path, option, text, status, said):
    """What `check` says of a file that it writes."""
    path.write_text(text, encoding="utf-8")
    ran = run([sys.executable, "-m", "promql", "check", option, path], seconds=20)
    check(f"check {path.name}", ran.status == status and said in ran.out + ran.err, (ran.status, ran.out, ran.err[-300:]))


def attack_files():
    """Files that are made to be dear: what is said of them, and that `format --write` of a rejected one leaves it as it was."""
    has_yaml = run([sys.executable, "-c", "import ruamel.yaml"]).status == 0
    if not has_yaml:
        print(f"not tried: rule files: {sys.executable} has no ruamel.yaml")
    with tempfile.TemporaryDirectory() as folder:
        for name, (text, status, said) in FILES.items():
            if name.endswith(".yml") and not has_yaml:
                continue
            path = Path(folder, name)
            check_file(path, "--queries", *FILES[name])
            ran = run([sys.executable, "-m", "promql", "format", "--write", path], seconds=20)
            is_so = (ran.status, ran.out) == (status if status in (0, 4, 14) else 2, "") and (not status or path.read_text(encoding="utf-8") == text)
            check(f"format --write {name}", is_so, (ran.status, ran.out, ran.err[-300:]))
        for name, file in CHECKED_FILES.items() if has_yaml else ():
            check_file(Path(folder, name), "--jobs=1", *file)
        check("nothing is left beside the files", not list(Path(folder).glob(".promql-*")), os.listdir(folder))


# With what a command ends that told of a file what it is to tell (docs/guide/rule-files.md, "Exit statuses").
FILE_STATUSES = (0, 1, 2, 3, 4, 14, 19, 23, 66)


def attack_by_large_files(part):
    """Files of 1 MiB of one construct, and of as much of it as is looked at: every fourth of them, each by one of the commands in turn."""
    if run([sys.executable, "-c", "import ruamel.yaml, yaml; yaml.CSafeLoader"]).status:
        print(f"not tried: large files: {sys.executable} has no ruamel.yaml, or no PyYAML with libyaml")
        return
    sys.path.insert(0, str(ROOT / "bindings/python/tests"))
    from dear_files import dear_files

    commands = itertools.cycle((["check"], ["lint"], ["format", "--check"], ["lint", "--fix"], ["check", "--output=json"]))
    with tempfile.TemporaryDirectory() as folder:
        for (name, text), command in itertools.islice(zip(dear_files(), commands), part, None, 4):
            path = Path(folder, name.replace("/", " "))
            path.write_text(text, encoding="utf-8", newline="")
            ran = run([sys.executable, "-m", "promql", *command, path])
            is_so = ran.status in FILE_STATUSES and "Traceback" not in ran.err and "Error:" not in ran.err
            check(f"{' '.join(command)} {name}", is_so, (ran.status, ran.err[:300]))
            path.unlink()


# ---- the page


@contextlib.contextmanager
def served():
    """The page's server in a process of its own, with limits, and its port."""
    words = [sys.executable, "-m", "promql", "serve", "--port", "0"]
    with subprocess.Popen(words, stdout=subprocess.PIPE, preexec_fn=limits(60, 4096, 8192), text=True) as process:
        try:
            yield process, int(process.stdout.readline().rstrip("/\n").rpartition(":")[2])
        finally:
            process.send_signal(signal.SIGINT)
            try:
                process.wait(20)
            except subprocess.TimeoutExpired:
                process.kill()


def ask(port, body):
    """The status of the response to a body, and the value in it; or nothing where the connection ends without one."""
    connection = http.client.HTTPConnection("127.0.0.1", port, timeout=30)
    try:
        connection.request("POST", "/query", body, {"Content-Type": "application/json"})
        response = connection.getresponse()
        return response.status, json.loads(response.read())
    except (ConnectionError, http.client.HTTPException):
        return None, None
    finally:
        connection.close()


def answers(port):
    """Whether the page answers a query, and in five seconds."""
    begun = time.monotonic()
    status, value = ask(port, b'{"query":"1+2"}')
    return status == 200 and value["line"] == "1 + 2" and time.monotonic() - begun < 5


def attack_page():
    with served() as (process, port):
        with contextlib.ExitStack() as slow:
            for number in range(100):
                connection = slow.enter_context(socket.create_connection(("127.0.0.1", port), timeout=30))
                connection.sendall(b"POST /query HTTP/1.1\r\nHost: localhost\r\n" if number % 2 else b"G")
            check("the page, beside a hundred requests that do not come", answers(port), "no answer in time")
            begun = time.monotonic()
            connection.settimeout(20)
            rest = connection.recv(1000)
            took = time.monotonic() - begun
            check("a request that does not come is ended", took < 15, (took, rest))
        for name, body, status in (
            ("a body of 1 MB", b"{" + b" " * (1 << 20), 413),
            ("a body of arrays in arrays", b"[" * 200_000, 400),
            ("a number of 200,000 digits", b'{"query":' + b"1" * 200_000 + b"}", 400),
        ):
            said = ask(port, body)[0]
            check(f"{name} for the page", said == status and answers(port), said)
        for name, (query, status, message) in QUERIES.items():
            body = json.dumps({"query": query}).encode()
            if len(body) < 250_000:
                said, value = ask(port, body)
                error = (value or {}).get("error", {"message": ""})["message"]
                wanted = OVER_LIMITS.get(name, TOO_MANY_LEVELS if message == TOO_DEEP else message)
                check(f"{name} for the page", said == 200 and error.startswith(wanted) and bool(error) == bool(status), (said, error))
        check("the page after all that", answers(port), "no answer in time")
        peak = int(next(line for line in Path(f"/proc/{process.pid}/status").read_text().splitlines() if "VmHWM" in line).split()[1])
        check("the memory of the page", peak < MEMORY << 10, f"{peak} kB")
    check("the page ends", process.returncode == 0, process.returncode)


def main():
    if sys.argv[1:2] == ["--files"]:
        attack_by_large_files(int(sys.argv[2]))
        return checks.end()
    for attack in (attack_by_queries, attack_by_trees, attack_by_stacks, attack_outputs, attack_terminals, attack_files, attack_page):
        attack()
    return checks.end()


if __name__ == "__main__":
    sys.exit(main())
