#!/usr/bin/env python3
"""Compares which patterns Go's regexp reads with those that promql reads: bench/patterns/README.md."""
import argparse
import collections
import json
import pathlib
import platform
import random
import re
import subprocess
import tempfile

HERE = pathlib.Path(__file__).resolve().parent
TOP = HERE.parent.parent
MEMBERS = [chr(b) for b in range(32, 127) if chr(b) not in "[\\]^-&~"]
BYTES = [chr(b) for b in range(32, 127) if chr(b) not in "()[\\{|*+?"]
ESCAPES = list("dDsSwW") + [chr(b) for b in range(32, 127) if not chr(b).isalnum() and chr(b) not in "<>"]
OTHER = ["(?x)", "(?i)", "(?s)", "(?-u)", "(?u)", "(?R)", "(?U)", "(?P<n>a)", "(?<n>a)", "**", "++", "?+", "{2}{3}", "{1001}", "{ 2 }",
         "{,2}", "{", "}", "]", "\\Q.\\E", "\\07", "\\0", "\\101", "\\x41", "\\x{4a}", "\\u1234", "\\pL", "\\p{Greek}", "\\p{greek}", "\\pL{1,1000}",
         "\\b", "\\B", "\\A", "\\z", "\\Z", "\\C", "\\X", "\\a", "\\v", "[[:alpha:]]", "[]a]", "[^]a]", "[a&&b]", "[\\w--\\d]", "[s&&self]", "[a~~b]",
         "\\é", "é", "[é-ü]", "# a\n", "\\1", "(?=a)", "(?!a)", "(?#a)", "a{3,2}", "[z-a]", "\\<", "\\>", "\\e", "\\h"]

# Patterns of any size are asked for.
NO_LIMITS = ("--max-len", str(2**64 - 1), "--max-patterns", str(2**64 - 1))


def count(rng):
    least = rng.choice([0, 1, 2, 3, 9, 10, 30, 99, 100, 500, 999])
    most = rng.choice([least, least + 1, min(999, least * 2 + 1), 999])
    return rng.choice(["{%d}" % least, "{%d,}" % least, "{%d,%d}" % (least, most)])


def class_of(rng):
    parts = []
    for _ in range(rng.randint(1, 4)):
        kind = rng.random()
        if kind < 0.5:
            parts.append(rng.choice(MEMBERS))
        elif kind < 0.8:
            low, high = sorted([rng.choice(MEMBERS), rng.choice(MEMBERS)])
            parts.append(low + "-" + high)
        else:
            parts.append("\\" + rng.choice(ESCAPES))
    hyphen = rng.random()
    inner = ("-" if hyphen < 0.1 else "") + "".join(parts) + ("-" if hyphen > 0.9 else "")
    return "[" + ("^" if rng.random() < 0.2 else "") + inner + "]"


def plain(rng, depth=0):
    """A plain pattern (docs/reference/matchers.md), made by its rule."""
    branches = []
    for _ in range(rng.choice([1, 1, 1, 2, 3])):
        branch = ""
        for _ in range(rng.randint(0, 4)):
            kind = rng.random()
            if kind < 0.6:
                item = rng.choice(BYTES)
            elif kind < 0.75:
                item = "\\" + rng.choice(ESCAPES)
            elif kind < 0.88 or depth > 3:
                item = class_of(rng)
            else:
                item = rng.choice(["(", "(?:"]) + plain(rng, depth + 1) + ")"
            if rng.random() < 0.3:
                item += rng.choice(["*", "+", "?", count(rng), count(rng)]) + ("?" if rng.random() < 0.2 else "")
            branch += item
        branches.append(branch)
    return "|".join(branches)


def counts_product(pattern):
    """The counts of a pattern, multiplied: none where Go's limit of 1,000 may be met."""
    product = 1
    for least, most in re.findall(r"\{(\d+)(?:,(\d*))?\}", pattern):
        product *= max(1, int(least), int(most or 0))
    return product


def read_here(program, patterns):
    lines = "".join(json.dumps('{x=~"%s",y="1"}' % p.replace("\\", "\\\\").replace('"', '\\"').replace("\n", "\\n")) + "\n" for p in patterns)
    run = subprocess.run([program, "batch", "line", *NO_LIMITS], input=lines, capture_output=True, text=True, check=False)
    answers = [json.loads(line) for line in run.stdout.splitlines()]
    assert len(answers) == len(patterns), (len(answers), run.stderr)
    return answers


def read_by_go(patterns):
    with tempfile.TemporaryDirectory() as folder:
        program = pathlib.Path(folder, "patterns")
        subprocess.run(["go", "build", "-o", program, "."], cwd=HERE / "go", check=True)
        run = subprocess.run([program], input="".join(json.dumps([p]) + "\n" for p in patterns), capture_output=True, text=True, check=True)
    return [line.startswith("yes") for line in run.stdout.splitlines()]


def main():
    parser = argparse.ArgumentParser(description=__doc__)
    parser.add_argument("--patterns", type=int, default=100_000)
    parser.add_argument("--seed", type=int, default=1)
    parser.add_argument("--program", default=str(TOP / "dist" / platform.machine() / "promql"))
    args = parser.parse_args()
    rng = random.Random(args.seed)
    plains = [plain(rng) for _ in range(args.patterns)]
    others = []
    while len(others) < args.patterns:
        text = plain(rng, 3)
        at = rng.randint(0, len(text))
        others.append(text[:at] + rng.choice(OTHER) + text[at:])
    for name, patterns in (("plain", plains), ("other", others)):
        here, go = read_here(args.program, patterns), read_by_go(patterns)
        kinds, shown = collections.Counter(), {}
        for pattern, answer, by_go in zip(patterns, here, go):
            by_us = "ok" in answer
            escaped = by_us and pattern.replace("\\", "\\\\").replace('"', '\\"').replace("\n", "\\n") not in answer["ok"]
            small = name == "plain" and counts_product(pattern) <= 1000
            kind = ("small " if small else "") + {(True, True): "read by both", (True, False): "read here alone", (False, True): "read by Go alone",
                    (False, False): "read by neither"}[by_us, by_go] + (", escaped here" if escaped else "")
            if answer.get("code", 4) != 4:
                kind += ", code %d" % answer["code"]
            kinds[kind] += 1
            if by_us != by_go:
                shown.setdefault(kind, []).append(pattern)
        print(name, dict(kinds))
        for kind, few in shown.items():
            for pattern in sorted(few, key=len)[:12]:
                print("   ", kind + ":", json.dumps(pattern, ensure_ascii=False))


if __name__ == "__main__":
    main()
