#!/usr/bin/env python3
"""Formats queries with comments at random places, and looks at what comes out.

    bench/format/formatted.py PROGRAM [--seed N] [--queries N] [--width N] [--keep-spelling]
    bench/format/formatted.py --made N [--seed N]

PROGRAM is a formatter that reads a query from standard input and takes `--width N`, `--keep-spelling` and bounds of a query, as
`promql format` does. The queries are those of bench/queries/queries.txt, and the texts of rows/*.tsv that are accepted. Each is formatted
as it is, and with comments between its tokens. With --made N, so many queries are made at random or taken from these, with comments, and
formatted by the library of dist/, each with a width and a spelling by chance. Of each layout it is asked

- that it is a query with the same line (`promql batch` of dist/ prints both), and with `--keep-spelling` the same tokens, but for commas
  that close a list;
- that it has the comments of the text, in order, with `--keep-spelling` each between the same tokens, but for commas, and formatted again
  is the same;
- that its matchers are in the order of the text;
- that no line is wider than asked for, without its comment, where the width is 80 or more and the line has no long token.

The last line is 'N passed, M failed'; the status is 1 where one failed.
"""

import argparse
import json
import random
import re
import subprocess
import sys
from pathlib import Path

TOP = Path(__file__).resolve().parents[2]
sys.path.insert(0, str(TOP / "bin"))
from checks import Checks, print_counts, released  # noqa: E402

PROMQL = released("promql")
PIECE = re.compile(r'\s+("(?:[^"\\]|\\.)*")(?:\s+\*(\d+))?')
TOKEN = re.compile(
    r"""(?P<string>"(?:\\.|[^"\\])*"|'(?:\\.|[^'\\])*'|`[^`]*`)"""
    r"|(?P<comment>\#[^\n\r]*)|(?P<word>[0-9][0-9._]*[eE][+-]?[0-9_]+|[A-Za-z_:0-9.]+)|(?P<space>\s+)|(?P<sign>=~|!~|!=|==|<=|>=|.)",
    re.DOTALL,
)
LONGEST = 1500
# A line with a longer token than this, or as many signs in a row, may be wider than a width of this and more.
LONG_TOKEN, LEAST_WIDTH = 30, 80
BOUNDS = ("--max-len", "10000000", "--max-patterns", "100000000")
COMMENT_RATE = 0.25
# After these words a comment would make another token of the word.
BOUND_WORDS = ("fill", "fill_left", "fill_right", "or")


def field_text(field: str) -> str:
    """The text of a field of a row (rows/README.md)."""
    if field.startswith('"'):
        return str(json.loads(field))
    if field.startswith("="):
        return "".join(json.loads(text) * int(times or 1) for text, times in PIECE.findall(field))
    return field


def lines_of(texts: list[str]) -> list[str | None]:
    """The line of each text, or `None` where it is no query."""
    requests = "".join(json.dumps({"query": text}) + "\n" for text in texts)
    command = [str(PROMQL), "batch", "line", *BOUNDS]
    done = subprocess.run(command, input=requests.encode(), capture_output=True, check=False)
    return [json.loads(answer).get("ok") for answer in done.stdout.splitlines()]


def queries() -> list[str]:
    """The queries of the benchmarks and of the rows, once each."""
    texts = (TOP / "bench" / "queries" / "queries.txt").read_text(encoding="utf-8").splitlines()
    for rows in sorted((TOP / "rows").glob("*.tsv")):
        for row in rows.read_text(encoding="utf-8").split("\n"):
            columns = row.split("\t")
            if len(columns) >= 4 and not row.startswith("#") and not columns[0].startswith("raw"):
                texts.append(field_text(columns[1]))
    texts = [text for text in dict.fromkeys(texts) if len(text) <= LONGEST]
    return [text for text, line in zip(texts, lines_of(texts)) if line is not None]


def tokens(text: str) -> list[str]:
    """The tokens of a text, without commas that close a list. A colon is one by itself: between durations it may have spaces around it."""
    found = [match for match in TOKEN.finditer(text) if match.lastgroup not in ("space", "comment")]
    split = (re.findall(":|[^:]+", match.group()) if match.lastgroup == "word" else [match.group()] for match in found)
    words = [word for parts in split for word in parts]
    return [word for word, after in zip(words, words[1:] + [""]) if word != "," or after not in (")", "}")]


def pieces(text: str) -> list[str]:
    """The tokens of a text and its comments, in order, without commas."""
    found = [match for match in TOKEN.finditer(text) if match.lastgroup != "space" and match.group() != ","]
    split = (re.findall(":|[^:]+", match.group()) if match.lastgroup == "word" else [match.group().rstrip()] for match in found)
    return [piece for parts in split for piece in parts]


def is_too_wide(line: str, width: int) -> bool:
    """Whether a line is wider than asked for without its comment, though its tokens are short, and its signs are few."""
    if re.search(f"[-+]{{{LONG_TOKEN}}}", line):
        return False
    code = [match for match in TOKEN.finditer(line) if match.lastgroup not in ("comment", "space")]
    return bool(code) and code[-1].end() > width >= LEAST_WIDTH and all(len(match.group()) <= LONG_TOKEN for match in code)


def comments(text: str) -> list[str]:
    """The comments of a text."""
    return [match.group() for match in TOKEN.finditer(text) if match.lastgroup == "comment"]


def matchers(text: str) -> list[str]:
    """The names and signs between the braces of a text, in order."""
    found: list[str] = []
    in_braces = False
    for match in TOKEN.finditer(text):
        token = match.group()
        in_braces = token == "{" or (in_braces and token != "}")
        if in_braces and match.lastgroup in ("word", "sign") and token != ",":
            found.append(token.lower() if token.lower() == "or" else token)
    return found


def with_comments(text: str, rng: random.Random) -> str:
    """The text with comments between tokens, outside of brackets."""
    parts: list[str] = []
    in_brackets = False
    before = ""
    for match in TOKEN.finditer(text):
        token = match.group()
        is_trivia = match.lastgroup in ("space", "comment")
        is_free = not in_brackets and not is_trivia and before.lower() not in BOUND_WORDS
        if is_free and rng.random() < COMMENT_RATE:
            gap = rng.choice([" ", "\n", "\r\n  "])
            parts.append(f"{gap}# {len(parts)}{rng.choice(['', ' ', chr(34), ' é', '#'])}\n")
        parts.append(token)
        if not is_trivia:
            before = token
            in_brackets = token == "[" or (in_brackets and token != "]")
    return "".join(parts) + rng.choice(["", " # last", "\n# last"])


def formatted(program: str, options: list[str], text: str) -> str | None:
    """What the program writes for a text, without the line feed at the end."""
    done = subprocess.run([program, "format", *BOUNDS, *options], input=text.encode(), capture_output=True, check=False)
    return done.stdout.decode().removesuffix("\n") if done.returncode == 0 else None


def fault(text: str, layout: str | None, again: str | None, keeps: bool, width: int) -> str | None:
    """What is wrong with the layout of a text, but for its line."""
    if layout is None:
        return "not formatted"
    if comments(layout) != comments(text):
        return "other comments"
    if again != layout:
        return "formatted again it differs"
    if matchers(layout) != matchers(text):
        return "matchers in another order"
    if keeps and tokens(layout) != tokens(text):
        return "other tokens"
    if keeps and pieces(layout) != pieces(text):
        return "a comment between other tokens"
    if any(is_too_wide(line, width) for line in layout.split("\n")):
        return "a line is too wide"
    return None


def check_made(count: int, rng: random.Random) -> int:
    """Formats this many queries by the library, and prints those that fail."""
    sys.path[:0] = [str(TOP / "bench" / "meaning"), str(TOP / "bindings" / "python")]
    import promql
    from compare import Maker

    promql.set_limits(max_len=10_000_000, max_patterns=100_000_000)
    promql.set_target("rules")  # (what a server reads otherwise is laid out, too)
    checks, maker, listed = Checks(most=20), Maker(rng), queries()
    while checks.passed + checks.failed < count:
        query = maker.query() if rng.random() < 0.7 else rng.choice(listed)
        text = with_comments(query, rng)
        try:
            line = promql.canonical(text)
        except promql.QueryError:
            continue  # (what is made is not always well typed)
        width, keeps = rng.choice((0, 20, 40, 80, 100, 200)), rng.random() < 0.5
        layout = again = other = None
        try:
            layout = promql.format_query(text, width=width, keep_spelling=keeps)
            again = promql.format_query(layout, width=width, keep_spelling=keeps)
            other = promql.canonical(layout)
        except promql.Error as error:
            found: str | None = f"{error!r}"
        else:
            found = fault(text, layout, again, keeps, width) or ("another line" if other != line else None)
        checks.check(found is None, f"{found}, width {width}:\n{text}\n=>\n{layout}\n")
    return checks.end()


def main() -> int:
    """Runs the cases, and prints those that fail."""
    parser = argparse.ArgumentParser(description="Formats queries with comments at random places.")
    parser.add_argument("program", nargs="?")
    parser.add_argument("--made", type=int)
    parser.add_argument("--seed", type=int, default=1)
    parser.add_argument("--queries", type=int, default=1000)
    parser.add_argument("--width", type=int, default=100)
    parser.add_argument("--keep-spelling", action="store_true")
    asked = parser.parse_args()
    rng = random.Random(asked.seed)
    if asked.made is not None:
        return check_made(asked.made, rng)
    if asked.program is None:
        parser.error("PROGRAM is missing")
    options = ["--width", str(asked.width), *(["--keep-spelling"] if asked.keep_spelling else [])]
    chosen = queries()
    rng.shuffle(chosen)
    texts = [copy for text in chosen[: asked.queries] for copy in (text, with_comments(text, rng))]
    layouts = [formatted(asked.program, options, text) for text in texts]
    again = [formatted(asked.program, options, layout or "") for layout in layouts]
    failed = 0
    lines = zip(lines_of(texts), lines_of([layout or "" for layout in layouts]))
    for text, layout, once_more, (line, layout_line) in zip(texts, layouts, again, lines):
        found = fault(text, layout, once_more, asked.keep_spelling, asked.width)
        if found is None and layout_line != line:
            found = "another line"
        if found is not None:
            failed += 1
            print(f"{found}:\n{text}\n=>\n{layout}\n")
    return print_counts(len(texts) - failed, failed)


if __name__ == "__main__":
    sys.exit(main())
