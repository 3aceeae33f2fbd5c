#!/usr/bin/env python3
"""lint.py [COUNT [SEED]]: compares which patterns the linter says Prometheus rejects with those that Go's regexp rejects: README.md."""

from __future__ import annotations

import collections
import json
import random
import sys
from pathlib import Path
from typing import Callable, Dict, List

from compare import OTHER, plain, read_by_go

sys.path.insert(0, str(Path(__file__).resolve().parent.parent.parent / "bindings" / "python"))

import promql
from promql.lint import lint

_MOST_SHOWN = 12
# What nested patterns are made of: single texts, classes, places, flags, how groups open, and what repeats.
_TEXTS = r"a b c . a b c . \d \pL \p{Greek} \p{Ll} \p{Old_Permic} \p{greek} \p{Cn} \p{Script=Han} \x41 \x{4a} \u1234".split()
_CLASSES = r"""
    [a-z] [[:alpha:]] [[:^digit:]] [[:^^digit:]] [[:foo:]] [^\w.-] [a&&b] [[a-c]x] [\w--\d] [a-c--b] [a--b] [+--] [!--a] []a] [^]a] [^^a]
    [a~~b] [\pL\d] [\p{Lu}&&x] [\x{4a}-z]
""".split()
_PLACES = r"\b \B ^ $ \A \z \b{start} \< \>".split()
_FLAGS = "(?i) (?U) (?s) (?x) (?u) (?R) (?-u) (?im) (?i-s) (?-)".split()
_OPENINGS = ("(", "(", "(?:", "(?:", "(?i:", "(?i-s:", "(?P<n%d>", "(?P<n%d>", "(?<n%d>", "(?P<é%d>", "(?P<n.%d>")
_REPEATS = """
    * + ? *? +? ** {2} {3,} {2,5} {0} {0,} {0,1} {1} {10} {32} {33} {100} {999} {1000} {1001} {7,9} {2}? {2}{3} {02} {00} {03}+ {01001} {,3}
""".split()


def nested(generator: random.Random, depth: int = 0) -> str:
    """A pattern of groups in groups, with counts of each spelling."""
    branches = []
    for _ in range(generator.choice((1, 1, 2))):
        branch = ""
        for _ in range(generator.randint(1, 3)):
            kinds = (_TEXTS, _TEXTS, _TEXTS, _CLASSES, _PLACES, _FLAGS, _OPENINGS, _OPENINGS)
            kind = generator.choice(kinds if depth < 4 else kinds[:6])
            item = generator.choice(kind)
            if kind is _OPENINGS:
                item = item.replace("%d", str(generator.randint(0, 99))) + nested(generator, depth + 1) + ")"
            branch += item + (generator.choice(_REPEATS) if kind is not _FLAGS and generator.random() < 0.4 else "")
        branches.append(branch)
    return "|".join(branches)


def other(generator: random.Random) -> str:
    """A plain pattern with something in it that is not plain."""
    text: str = plain(generator, 3)
    for _ in range(generator.choice((1, 1, 2))):
        at = generator.randint(0, len(text))
        text = text[:at] + generator.choice(OTHER) + text[at:]
    return text


_KINDS: Dict[str, Callable[[random.Random], str]] = {"plain": plain, "other": other, "nested": nested}


def says(pattern: str) -> str:
    """What the linter says of a pattern."""
    query = 'x{y="1",a=~"' + pattern.replace("\\", "\\\\").replace('"', '\\"').replace("\n", "\\n") + '"}'
    found = {finding.code for finding in lint(query, select=("P001", "P101", "P102"))}
    return "rejected here" if "P001" in found else "told" if "P101" in found else "read otherwise" if found else "nothing told"


def main(count: str = "100000", seed: str = "1") -> None:
    generator = random.Random(int(seed))
    for name, made in _KINDS.items():
        # (most nested ones that measure more cannot be compiled, and to find that out takes long)
        promql.set_limits(max_len=2**32, max_patterns=20_000 if made is nested else 2**63)
        patterns = [made(generator) for _ in range(int(count))]
        kinds: Dict[str, List[str]] = collections.defaultdict(list)
        for pattern, by_go in zip(patterns, read_by_go(patterns)):
            kinds[f"{says(pattern)}, {'read' if by_go else 'rejected'} by Go"].append(pattern)
        print(name, {kind: len(found) for kind, found in sorted(kinds.items())})
        for kind in ("told, read by Go", "nothing told, rejected by Go", "read otherwise, rejected by Go"):
            for pattern in sorted(kinds[kind], key=len)[:_MOST_SHOWN]:
                print("   ", f"{kind}:", json.dumps(pattern, ensure_ascii=False))


if __name__ == "__main__":
    main(*sys.argv[1:])
