#!/usr/bin/env python3
"""Runs the examples that change queries, change_queries of each language, on the queries of the rows that have one line, and compares what
they print.

usage: bindings/change_queries.py PROGRAM..   with the program of dist/. The last line is 'N passed, M failed'

Queries that call `info`, have a matcher of `__name__` or are read otherwise by a Prometheus are left out: the one for C puts the matcher in
by `promql_enforce`, and lists what `promql_collect` does.
"""

import json
import subprocess
import sys

import rows
import trees
from checks import print_counts, released

WORDS = ("tenant", "team-a", "foo", "foo_total", "job")
NO = "not changed"
READ_OTHERWISE = 23
# Queries with what each program prints of them.
CHANGED = (
    ("rate(foo[5m]) / bar", 'bar foo: sum by (job) (rate(foo_total{tenant="team-a"}[5m]) / bar{tenant="team-a"})'),
    ("foo{a='1' or b=\"2\"} + foo", 'foo: sum by (job) (foo_total{a="1", tenant="team-a" or b="2", tenant="team-a"} + '
     'foo_total{tenant="team-a"})'),
    ("topk(1, foo[1m])", NO),
    ("1 + 1", NO),
)


def answers(mode, queries):
    """What promql batch answers to each query, or other request, in a mode."""
    asked = "".join(json.dumps(query) + "\n" for query in queries)
    command = [released("promql"), "batch", mode, "--max-len", str(rows.MAX_LEN)]
    ran = subprocess.run(command, input=asked.encode(), stdout=subprocess.PIPE, timeout=60)
    return [json.loads(answer) for answer in ran.stdout.splitlines()]


def queries():
    """The queries of the rows that each program reads, with room for a matcher within the limits of a query."""
    found = [it for it in trees.accepted_queries() if not any(sign in it for sign in "\n\r\0") and len(it.encode()) < 30_000]
    enforced = answers("line", [{"query": query, "enforce": 'tenant="team-a"'} for query in found])
    for query, answer, other in zip(found, answers("json", found), enforced):
        form = json.dumps(answer.get("ok"))
        if '"__name__"' not in form and '"info"' not in form and other.get("code") != READ_OTHERWISE:
            yield query


def run(program, lines):
    asked = "".join(line + "\n" for line in lines)
    ran = subprocess.run([program, *WORDS], input=asked.encode(), stdout=subprocess.PIPE, stderr=subprocess.DEVNULL, timeout=120)
    return ran.stdout.decode().split("\n")[:-1]


def is_canonical(lines):
    """For each line that a program prints, whether its query is the canonical line of itself."""
    queries = [line.split(": ", 1)[-1] for line in lines]
    return [answer.get("ok") == query for answer, query in zip(answers("line", queries), queries)]


def main(programs):
    if not programs:
        sys.exit(__doc__)
    passed = failed = changed = 0
    asked = [query for query, _ in CHANGED] + list(queries())
    wanted = [line for _, line in CHANGED]
    for program in programs:
        lines = run(program, asked)
        wanted += lines[len(wanted) :]
        same = [one == other for one, other in zip(lines, wanted)]
        if program == programs[0]:
            same = [is_same and (line == NO or good) for is_same, line, good in zip(same, lines, is_canonical(lines))]
            changed = len(lines) - lines.count(NO)
        same += [False] * (len(asked) - len(same))
        for query, is_same in zip(asked, same):
            if not is_same and failed < 20:
                print(f"FAILED {program}: {query[:200]}")
            passed, failed = passed + is_same, failed + (not is_same)
    print(f"{changed} of {len(asked)} queries are changed")
    return print_counts(passed, failed)


if __name__ == "__main__":
    sys.exit(main(sys.argv[1:]))
