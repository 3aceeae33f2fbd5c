#!/usr/bin/env python3
"""Finds what is expected at the place of each syntax error of rows/*.tsv, without `expected_tokens`. README.md says how.

usage: bench/places/expected.py PROGRAM            compares the sixth column of the rows with what is found here
       bench/places/expected.py PROGRAM --write    writes that column where it is missing

PROGRAM is a promql: it is asked which texts it accepts, and with which message it rejects others.
"""

import json
import sys
from pathlib import Path
from typing import Generator, Iterator

from lexing import AGGREGATORS, FILLS, KEYWORDS, WORD_OPERATORS, Token, lex
from oracle import SYNTAX, Judge, fits, misfit, rejected_rows

# A generator of questions, texts, that takes the messages with which they are rejected.
Search = Generator[list[bytes], list[str | None], list[str]]

# What stands among kinds for the end of the text.
END = ""
NAMES = {"number": "number", "duration": "duration", "string": "string", "identifier": "identifier", "metric": "metric name"}
SIGNS = "+ - * / % ^ == != >= > <= <".split()
# The kinds of tokens in the order of their ids, each with a text: docs/reference/tokens.md, "Ids".
SAMPLES: list[tuple[str, str]] = [
    *(("=", "="), (":", ":"), (",", ","), ("duration", "5m"), ("identifier", "x"), ("{", "{"), ("[", "["), ("(", "("), ("metric", "x:y")),
    *(("number", "1"), ("}", "}"), ("]", "]"), (")", ")"), ("string", '"s"'), ("+", "+"), ("/", "/"), ("==", "=="), ("=~", "=~")),
    *((sign, sign) for sign in (">=", ">", "and", "or", "<", "<=", "unless", "%", "*", "!=", "!~", "^", "-", "@", "atan2")),
    *(("aggregation", word) for word in AGGREGATORS[:1]),
    *((word, word) for word in "bool by group_left group_right ignoring offset smoothed anchored on without fill fill_left fill_right".split()),
    *(("start", "start"), ("end", "end")),
]
OPERATORS = [*SIGNS, *WORD_OPERATORS]
NOT_NAMES = ["on", "ignoring", "group_left", "group_right", "bool"]
WORDS = ["identifier", "metric", "aggregation", *WORD_OPERATORS, *(word for word in KEYWORDS if word not in NOT_NAMES)]
BEGINNINGS = ["number", "duration", "string", "(", "{", "+", "-", *WORDS]
LABELS = [*(word for word in WORDS if word != "metric"), *NOT_NAMES]


def kind_of(token: Token) -> str:
    """The kind of a token by its name in SAMPLES."""
    if token.kind == "aggregator":
        return "aggregation"
    return token.text.lower().decode() if token.kind in ("operator", "or") else token.kind


def goes_on(front: bytes, count: int, kind: str, sample: str) -> Generator[list[bytes], list[str | None], bool]:
    """Whether some query begins with these tokens, so many, and then one of this kind."""
    text = front + b" " + sample.encode()
    longer = text + (b" (" if kind in FILLS else b" ")
    tokens = lex(longer)[0][: count + 1]
    if len(tokens) <= count or tokens[:count] != lex(front + b" ")[0] or kind_of(tokens[count]) != kind:
        return False
    found = yield from fits(longer, tokens, count + 1, False)
    return bool(found)


def expected_at(text: bytes) -> Search:
    """What is found where a token of a text does not fit, and the names of what is expected there."""
    tokens, _ = lex(text)
    at = yield from misfit(text, tokens)
    front = text[: tokens[at - 1].end] if at else b""
    kinds = []
    for kind, sample in SAMPLES:
        if (yield from goes_on(front, at, kind, sample)):
            kinds.append(kind)
    (message,) = yield [front]
    if at and not lex(front)[1] and message != SYNTAX:
        kinds.append(END)
    names = dict.fromkeys(name_of(kind, kinds) for kind in kinds)
    return [found_name(tokens[at] if at < len(tokens) else None), *names]


def name_of(kind: str, kinds: list[str]) -> str:
    if kind == END:
        return "end of query"
    if "number" in kinds and "{" in kinds and kind in BEGINNINGS:
        return "expression"
    if "identifier" in kinds and "number" not in kinds and kind in LABELS:
        return "label name"
    if "*" in kinds and kind in OPERATORS:
        return "operator"
    return NAMES.get(kind, "aggregation" if kind == "aggregation" else f'"{kind}"')


def found_name(found: Token | None) -> str:
    if found is None:
        return "end of query"
    text = found.text.decode()
    if found.kind == "string":
        return f"string {text}"
    kind = kind_of(found)
    return f'{NAMES.get(kind, kind)} "{text}"' if kind in NAMES or kind == "aggregation" else f'"{text}"'


def found_in_rows(judge: Judge, is_complete: bool) -> Iterator[tuple[Path, int, list[str], str]]:
    """Each row with a syntax error, or each that lacks its sixth column: its file, the number of its line, its columns, and the sixth."""
    rows = [(path, number, columns, text) for path, number, columns, text, message in rejected_rows() if message == SYNTAX]
    rows = [row for row in rows if is_complete or len(row[2]) == 5]
    texts = list(dict.fromkeys(text for *_, text in rows))
    found = dict(zip(texts, judge.run([expected_at(text) for text in texts])))
    for path, number, columns, text in rows:
        yield path, number, columns, json.dumps(found[text], ensure_ascii=False)


def main(words: list[str]) -> None:
    if not words or words[1:] not in ([], ["--write"]):
        sys.exit(__doc__)
    files: dict[Path, list[str]] = {}
    count = differ = 0
    for path, number, columns, column in found_in_rows(Judge(words[0]), not words[1:]):
        count += 1
        if len(columns) == 5 and words[1:]:
            lines = files.setdefault(path, path.read_text(encoding="utf-8").split("\n"))
            lines[number] = "\t".join([*columns, column])
        elif columns[5:] != [column]:
            differ += 1
            print(f"rows/{path.name}:{number + 1}: {columns[5:]}, and {column} here: {columns[1][:200]}")
    for path, lines in files.items():
        path.write_text("\n".join(lines), encoding="utf-8")
    print(f"{count} rows, {differ} differ")
    sys.exit(1 if differ else 0)


if __name__ == "__main__":
    sys.setrecursionlimit(100_000)
    main(sys.argv[1:])
