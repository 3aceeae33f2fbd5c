"""Counts the queries of a log that are the same but for their spelling, by Dask: count_queries.py LOG [WORKERS [BLOCK]]

The log has a JSON string a line. The ten canonical lines that occur most are printed, each after its number. A worker gets a block
of the log (4MiB) at a time, and calls the package promql, so Python has to find that.
"""

import json
import sys

import promql
from dask import bag
from dask.distributed import Client, LocalCluster

SHOWN = 10


def canonical(line):
    """The canonical line of the query, or why there is none."""
    try:
        return promql.canonical(json.loads(line))
    except promql.QueryError as error:
        return f"(rejected: {error.message})"


def counts(log, block):
    """The canonical lines of the log that occur most, with their numbers."""
    lines = bag.read_text(log, blocksize=block)
    return lines.map(canonical).frequencies().topk(SHOWN, key=lambda it: (it[1], it[0])).compute()


def main(log, workers=None, block="4MiB"):
    number = None if workers is None else int(workers)
    with LocalCluster(n_workers=number, threads_per_worker=1, dashboard_address=None) as cluster, Client(cluster):
        for line, count in counts(log, block):
            print(count, line)


if __name__ == "__main__":
    main(*sys.argv[1:])
