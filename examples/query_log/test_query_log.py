"""Tests of the examples on a log of 10,000 lines: test_query_log.py answer|count. `count` needs Dask, and Python has to find the
package promql. The last line is 'N passed, M failed'.
"""

import json
import os
import subprocess
import sys
import tempfile
from collections import Counter
from pathlib import Path

HERE = Path(__file__).resolve().parent
sys.path.insert(0, str(HERE.parents[1] / "bin"))
from checks import Checks, released  # noqa: E402

PROMQL = released("promql")
LINES = 10_000

checks = Checks()


def check(name, holds):
    checks.check(holds, name)


def run(*words, text=None, **environment):
    """The status of a program, and its output."""
    ran = subprocess.run(words, input=text, stdout=subprocess.PIPE, env={**os.environ, **environment}, timeout=200)
    return ran.returncode, ran.stdout


def batch(mode, log):
    """The answers of one process."""
    return run(PROMQL, "batch", mode, text=log)[1]


def test_answers(log):
    for mode, jobs, block in ("line", "4", "20k"), ("pretty", "2", "100k"), ("json", "3", "1M"), ("line", "1", "10M"):
        found = run(HERE / "answer.sh", mode, jobs, block, text=log)
        check(f"answers in the mode {mode}, in blocks of {block}", found == (0, batch(mode, log)))
    check("no lines", run(HERE / "answer.sh", "line", text=b"") == (0, b""))
    check("an unknown mode", run(HERE / "answer.sh", "lines", text=log)[0] != 0)
    check("a process that fails", run(HERE / "answer.sh", "line", text=log, PROMQL="false")[0] != 0)


def count_one_by_one(log):
    """What count_queries.py prints of a log, from the answers of one process."""
    answers = map(json.loads, batch("line", log).splitlines())
    counts = Counter(it["ok"] if "ok" in it else f"(rejected: {it['error']})" for it in answers)
    most = sorted(counts.items(), key=lambda it: (it[1], it[0]), reverse=True)[:10]
    return "".join(f"{count} {line}\n" for line, count in most).encode()


def test_counts(log):
    # (of which one query occurs most, and the rejected ones after it)
    log += b'"sum (up) by (job)"\n"sum by(job)(up)"\n' * 400
    log += b'"rate(up)"\n' * 300
    with tempfile.TemporaryDirectory() as folder:
        file = Path(folder) / "log"
        file.write_bytes(log)
        for workers, block in ("2", "100kB"), ("1", "10MB"):
            words = sys.executable, HERE / "count_queries.py", file, workers, block
            found = run(*words, DASK_TEMPORARY_DIRECTORY=folder)
            check(f"counts of {workers} workers, in blocks of {block}", found == (0, count_one_by_one(log)))
        check("the first line", found[1].startswith(b"800 sum by (job) (up)\n300 (rejected: expected type matrix"))


def main(name):
    status, log = run(sys.executable, HERE / "make_log.py", str(LINES))
    check("the log", status == 0 and log.count(b"\n") == LINES)
    {"answer": test_answers, "count": test_counts}[name](log)
    return checks.end()


sys.exit(main(sys.argv[1]))
