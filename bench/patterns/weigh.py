#!/usr/bin/env python3
"""Holds the measure of a pattern against the crate `regex-syntax`: bench/patterns/README.md, "The measure".

usage: bench/patterns/weigh.py PROGRAM [COUNT [SEED]]

Prints each pattern that measures less than its items come to. The last line is 'N patterns, R read, F failed'; exits with 1 where one
failed.
"""

import json
import os
import random
import re
import subprocess
import sys
import tempfile
from pathlib import Path

from patterns import pattern, quoted

FOLDER = Path(__file__).resolve().parent / "weigh"
# Where Debian's librust-regex-syntax-dev has its source.
SOURCES = "/usr/share/cargo/registry"
MEASURE = re.compile(r"patterns are too large: (\d+), at most 0$")


def built(folder):
    """Builds the program that weighs, without a network, and returns its path."""
    source = 'source.crates-io.replace-with="debian"', f'source.debian.directory="{SOURCES}"'
    options = [word for it in source for word in ("--config", it)]
    command = ["cargo", "build", "--quiet", "--release", "--offline", "--target-dir", folder, *options]
    subprocess.run(command, cwd=FOLDER, env={**os.environ, "CARGO_HOME": f"{folder}/home"}, check=True)
    return f"{folder}/release/weigh"


def measures(program, patterns):
    """What each pattern measures: it is told where nothing is allowed."""
    lines = "".join(json.dumps(f"x{{a=~{quoted(it)}}}") + "\n" for it in patterns)
    limits = ("--max-patterns", "0")
    run = subprocess.run([program, "line", *limits], input=lines.encode(), stdout=subprocess.PIPE, check=False)
    answers = (json.loads(line) for line in run.stdout.decode().split("\n")[:-1])
    return [int(MEASURE.search(answer["error"])[1]) for answer in answers]


def weights(program, patterns):
    """What the items of each pattern come to; None where it is not read."""
    lines = "".join(f"^(?:{it})$".encode().hex() + "\n" for it in patterns)
    run = subprocess.run([program], input=lines.encode(), stdout=subprocess.PIPE, check=True)
    return [None if line == "-" else int(line) for line in run.stdout.decode().split("\n")[:-1]]


def main():
    program = sys.argv[1]
    wanted = int(sys.argv[2]) if len(sys.argv) > 2 else 100_000
    make = random.Random(int(sys.argv[3]) if len(sys.argv) > 3 else 1)
    read = failed = 0
    with tempfile.TemporaryDirectory() as folder:
        weigh = built(folder)
        for start in range(0, wanted, 5_000):
            patterns = [pattern(make) for _ in range(min(5_000, wanted - start))]
            for text, measure, weight in zip(patterns, measures(program, patterns), weights(weigh, patterns), strict=True):
                if weight is None:
                    continue
                read += 1
                if measure < min(weight, 2**64 - 1):
                    failed += 1
                    print(json.dumps(text), f"measures {measure}, has {weight} items")
    print(f"{wanted} patterns, {read} read, {failed} failed")
    sys.exit(failed > 0)


if __name__ == "__main__":
    main()
