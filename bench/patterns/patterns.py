#!/usr/bin/env python3
"""Patterns made at random, read and matched by a promql.

usage: bench/patterns/patterns.py PROGRAM [COUNT [SEED]]

Each pattern P is asked twice: in x{a=~"P"}, which reads it, and in {a=~"P"}, which also matches the empty text. The last line
is 'N patterns, M failed'; exits with 1 where one failed.
"""

import json
import random
import subprocess
import sys
from collections import Counter

# White space that `regex` leaves out in a count: of ASCII, and Unicode's.
SPACES = [" ", "\t", "\n", "\v", "\f", "\r", "\u0085", "\u00a0", "\u1680", "\u2003", "\u2028", "\u3000"]
ATOMS = [
    "a", "b", "é", "日", ".", "^", "$", r"\d", r"\W", r"\w", r"\s", r"\.", r"\{", r"\}", r"\x41", r"\x{4a}", r"\x{10FFFF}",
    r"\x{110000}", r"\u0041", r"\u{e9}", r"\p{Greek}", r"\pL", r"\P{Lu}", r"\p{Nope}", r"\b", r"\b{start}", r"\<", r"\Q", r"\é",
    "[a-z]", "[^a]", "[{]", "[{ 9]", r"[\w\d]", r"[^\W_-]", "[[:alpha:]]", "[a&&b]", "[]a]", "[", "{", "}", "#", " ", ",", "(?i)k",
]
OPENINGS = ["(", "(", "(?:", "(?i:", "(?x:", "(?P<n>", "(?<m>", "(?s-i:"]
COUNTS = [0, 1, 2, 3, 7, 9, 30, 82, 90, 99, 166, 250, 499, 500, 800, 999, 1000, 1001, 65536, 99999999, 4294967295, 4294967296, 10**20]
MESSAGES = ("illegal regex for ", "vector selector must contain at least one non-empty matcher")

# Patterns of any size are asked for.
NO_LIMITS = ("--max-len", str(2**64 - 1), "--max-patterns", str(2**64 - 1))


def space(make, verbose):
    """White space that may be in a count, often none; with a comment where the flag x is set."""
    if make.random() < 0.7:
        return ""
    text = "".join(make.choice(SPACES) for _ in range(make.randint(1, 3)))
    if verbose and make.random() < 0.3:
        text += "#" + make.choice(["", "9", "}", "{2}"]) + "\n"
    return text


def number(make, verbose):
    """The digits of a count, with white space between where the flag x is set."""
    digits = str(make.choice(COUNTS))
    if verbose and make.random() < 0.5:
        digits = "".join(digit + space(make, True) for digit in digits)
    return space(make, verbose) + digits + space(make, verbose)


def count(make, verbose):
    """A count, or what looks like one."""
    kind = make.random()
    inside = number(make, verbose)
    if kind < 0.25:
        inside += ","
    elif kind < 0.5:
        inside += "," + number(make, verbose)
    elif kind < 0.55:
        inside = make.choice(["", "b", ",2", "1,,2", "1 2", "-1", "٣"])
    opening = "{" + (space(make, True) if verbose else "")
    return opening + inside + make.choice(["}", "}", "}", "}?", "}{2}", ""])


def items(make, verbose, depth):
    text = ""
    for _ in range(make.choice([1, 1, 1, 2, 3, 5])):
        if depth and make.random() < 0.35:
            text += make.choice(OPENINGS) + items(make, verbose, depth - 1) + ")"
        elif make.random() < 0.03:
            text += make.choice(ATOMS) * make.choice([31, 83, 166, 248, 331, 497, 994, 1200])
        else:
            text += make.choice(ATOMS)
        if make.random() < 0.45:
            text += make.choice(["*", "+", "?", "*?", "|"]) if make.random() < 0.3 else count(make, verbose)
    return text


def pattern(make):
    verbose = make.random() < 0.3
    return ("(?x)" if verbose else "") + items(make, verbose, make.choice([0, 0, 1, 2, 3]))


def quoted(text):
    """The text as a string of a query."""
    return '"' + text.replace("\\", "\\\\").replace('"', '\\"').replace("\n", "\\n") + '"'


def ask(program, patterns):
    """The answers to both queries of each pattern."""
    queries = (form % quoted(text) for text in patterns for form in ("x{a=~%s}", "{a=~%s}"))
    lines = "".join(json.dumps(query) + "\n" for query in queries)
    run = subprocess.run([program, "batch", "line", *NO_LIMITS], input=lines.encode(), stdout=subprocess.PIPE, check=False)
    answers = [json.loads(line) for line in run.stdout.decode().split("\n")[:-1]]
    return zip(answers[::2], answers[1::2], strict=True)


def kind(answer):
    """Whether an answer is a tree, a rejected pattern or an empty matcher; else its code."""
    if "ok" in answer:
        return "read"
    for name, message in zip(("rejected", "empty"), MESSAGES):
        if answer["code"] == 4 and answer["error"].startswith(message):
            return name
    return f"code {answer['code']}: {answer['error']}"


def main():
    program = sys.argv[1]
    wanted = int(sys.argv[2]) if len(sys.argv) > 2 else 100_000
    make = random.Random(int(sys.argv[3]) if len(sys.argv) > 3 else 1)
    seen, failed = Counter(), 0
    for start in range(0, wanted, 5_000):
        patterns = [pattern(make) for _ in range(min(5_000, wanted - start))]
        for text, (read, matched) in zip(patterns, ask(program, patterns), strict=True):
            pair = kind(read), kind(matched)
            seen[pair] += 1
            if pair not in {("read", "read"), ("read", "empty"), ("rejected", "rejected")}:
                failed += 1
                print(json.dumps(text), *pair)
    for pair, times in seen.most_common():
        print(times, *pair, file=sys.stderr)
    print(f"{wanted} patterns, {failed} failed")
    sys.exit(failed > 0)


if __name__ == "__main__":
    main()
