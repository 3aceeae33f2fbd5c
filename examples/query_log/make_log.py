"""Writes a log of queries to try the examples with: make_log.py COUNT

It has the queries of bench/queries again and again, a JSON string a line, and after each hundred of them one that is rejected.
"""

import json
import sys
from itertools import cycle, islice
from pathlib import Path

QUERIES = Path(__file__).resolve().parents[2] / "bench" / "queries" / "queries.txt"


def lines():
    queries = cycle(QUERIES.read_text(encoding="utf-8").splitlines())
    while True:
        yield from (f"{json.dumps(query)}\n" for query in islice(queries, 100))
        yield '"sum(rate(foo[5m]) by (job)"\n'


sys.stdout.writelines(islice(lines(), int(sys.argv[1])))
