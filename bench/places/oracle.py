#!/usr/bin/env python3
"""Finds the place of each rejected query of rows/*.tsv without the function `diagnose`. README.md says how.

usage: bench/places/oracle.py PROGRAM            compares the fifth column of the rows with the places found here
       bench/places/oracle.py PROGRAM --write    writes that column where it is missing
       bench/places/oracle.py PROGRAM --ask      prints MESSAGE, a TAB and the place of each query of standard input, a JSON
                                                 string a line

PROGRAM is a promql: it is asked which texts it accepts, and with which message it rejects others.
"""

import json
import subprocess
import sys
from importlib.machinery import SourceFileLoader
from pathlib import Path

from lexing import FILLS, lex
from trees import FUNCTIONS, Parser

ROOT = Path(__file__).resolve().parents[2]
sys.path.append(str(ROOT / "bin"))
SYNTAX, TOO_DEEP, EMPTY = "invalid promql query", "expression nested too deeply", "no expression found in input"
# What may follow a token so that an expression ends there, but for the parentheses that are open.
ENDINGS = [
    *("", "a", "1", "(a)", "(x) (a)", "(x)", ") (a)", ")", ") a", "(x) a", "1) a", "(1) a", "5m", "()", "5m]", "]"),
    *("}", 'x="y"}', '="b"}', '"b"}', "(x) ()", ") ()"),
]
END = "end"


class Judge:
    """Asks a promql; remembers short questions."""

    def __init__(self, program):
        self.program, self.known = program, {}

    def messages(self, texts):
        """The message with which each text is rejected, None where it is accepted."""
        new = [it for it in dict.fromkeys(texts) if it not in self.known]
        lines = b"".join(json.dumps(it.decode(), ensure_ascii=False).encode() + b"\n" for it in new)
        ran = subprocess.run([self.program, "batch", "line"], input=lines, stdout=subprocess.PIPE, check=False)
        found = dict(zip(new, (json.loads(line).get("error") for line in ran.stdout.split(b"\n")[:-1]), strict=True))
        self.known.update((text, message) for text, message in found.items() if len(text) < 500)
        return [found[it] if it in found else self.known[it] for it in texts]

    def run(self, searches):
        """Runs generators side by side that yield lists of texts and take the messages; returns their results."""
        results, waiting = [None] * len(searches), [(index, it, None) for index, it in enumerate(searches)]
        while waiting:
            asking = []
            for index, search, answer in waiting:
                try:
                    asking.append((index, search, search.send(answer)))
                except StopIteration as end:
                    results[index] = end.value
            messages = iter(self.messages([text for _, _, texts in asking for text in texts]))
            waiting = [(index, search, [next(messages) for _ in texts]) for index, search, texts in asking]
        return results


# ---- tokens that do not fit


def completions(text, tokens, count):
    """Texts that begin with the first `count` tokens and may be expressions."""
    last = tokens[count - 1]
    opened = sum((it.kind == "(") - (it.kind == ")") for it in tokens[:count])
    for space in ("\n", " "):
        if (space, last.kind) == ("\n", "or") or (space == " " and last.kind == "identifier" and last.text.lower() == b"or"):
            # (in braces `or` is an operator exactly if a space follows)
            continue
        for ending in ENDINGS:
            if last.text.lower().decode() in FILLS and (last.kind in FILLS) != ending.startswith("("):
                # (these words are keywords exactly before a parenthesis)
                continue
            left = opened + ending.count("(") - ending.count(")")
            if left >= 0:
                yield text[: last.end] + (space + ending + ")" * left).encode()


def fits(text, tokens, count, is_too_deep):
    """Whether some text that begins with the first `count` tokens is an expression; a generator of questions."""
    texts = list(completions(text, tokens, count))
    size = 8 if len(texts[0]) < 2000 else 2
    for at in range(0, len(texts), size):
        messages = yield texts[at : at + size]
        for completed, message in zip(texts[at:], messages):
            if message is None or (message == TOO_DEEP and not is_too_deep):
                return True
            if message not in (SYNTAX, EMPTY, TOO_DEEP) and not lex(completed)[1]:
                return True
    return False


def misfit(text, tokens, is_too_deep=False):
    """The index of the first token that does not fit; that of the end where all fit."""
    low, high = 0, len(tokens)
    # (the first `low` tokens fit, and the first `high` + 1 do not, or are all)
    while low < high:
        middle = (low + high) // 2
        if (yield from fits(text, tokens, middle + 1, is_too_deep)):
            low = middle + 1
        else:
            high = middle
    return low


def too_deep(text, tokens):
    """The last token that was read: the parenthesis, the sign, the operator or the closing bracket."""
    at = yield from misfit(text, tokens, True)
    if tokens[at].kind == ":":
        return next(it for it in range(at, len(tokens)) if tokens[it].kind == "]")
    return at if tokens[at].kind in ("(", "operator") else at - 1


# ---- nodes that build no tree


def slice_of(text, tokens, node):
    return text[tokens[node.first].start : tokens[node.end - 1].end]


def first_rejected(text, tokens, root):
    """The first node in the order of building that is rejected: its tokens have a fault, and those of no child have one."""
    node = root
    while True:
        spine = [node]
        while spine[-1].children:
            spine.append(spine[-1].children[0])
        # (of nodes that are one in the other the outer ones are rejected too)
        low, high = 0, len(spine) - 1
        while low < high:
            middle = (low + high + 1) // 2
            (message,) = yield [slice_of(text, tokens, spine[middle])]
            low, high = (middle, high) if message else (low, middle - 1)
        node = spine[low]
        messages = yield [slice_of(text, tokens, it) for it in node.children]
        rejected = [it for it, message in zip(node.children, messages) if message]
        if not rejected:
            return node
        node = rejected[0]


def built(text, tokens):
    """The message and the tokens of the first fault of building."""
    node = yield from first_rejected(text, tokens, Parser(tokens).all())
    messages = yield [it.question for it in node.leaves]
    for leaf, message in zip(node.leaves, messages):
        if message:
            return message, leaf.first, leaf.end
    (message,) = yield [slice_of(text, tokens, node)]
    return message, *part_of(node, message)


def part_of(node, message):
    """The tokens that a check of this node is about (docs/reference/grammar.md, "Places of errors")."""
    whole, children = (node.first, node.end), node.children
    if node.form == "binary":
        return binary_part(node, message)
    if node.form in ("call", "aggregation") and message.startswith("expected type"):
        wrong = mistyped(node)
        return wrong.first, wrong.end
    if node.form == "sign":
        return children[0].first, children[0].end
    if node.form == "subquery":
        return children[0].first, node.parts["postfix"]
    if node.form in ("matrix", "at", "offset", "mode"):
        return node.parts["postfix"], node.end
    return whole


def mistyped(node):
    """The argument that has another type than expected."""
    types = [it.type() for it in node.children]
    if node.form == "aggregation":
        # (the expression comes last, and is checked first)
        return node.children[-1] if types[-1] != "vector" else node.children[0]
    expected = FUNCTIONS[node.parts["name"]][0]
    return next(it for at, it in enumerate(node.children) if types[at] != expected[min(at, len(expected) - 1)])


def binary_part(node, message):
    left, right = node.children
    modifier = node.parts["modifier"]
    if message.startswith("set operator"):
        side = left if left.type() == "scalar" else right
        return side.first, side.end
    if message.startswith("binary expression must contain"):
        side = right if left.type() in ("scalar", "vector") else left
        return side.first, side.end
    if message.startswith("comparisons between scalars"):
        return node.first, node.end
    assert modifier[0] < modifier[1], message
    return modifier


# ---- a text


def place_of(text, message):
    """The place of the error of a text, and the message that belongs there."""
    tokens, fault = lex(text)
    if fault and fault.message == "unclosed left parenthesis":
        at = yield from misfit(text, tokens)
        return fault.message, bounds(tokens, at, at + 1)
    if fault:
        is_end = fault.at is None or fault.at == len(text)
        return fault.message, END if is_end else char_bounds(text, fault.at)
    if not tokens:
        return EMPTY, END
    if message == SYNTAX:
        at = yield from misfit(text, tokens)
        return message, bounds(tokens, at, at + 1)
    if message == TOO_DEEP:
        at = yield from too_deep(text, tokens)
        return message, bounds(tokens, at, at + 1)
    found, first, end = yield from built(text, tokens)
    return found, bounds(tokens, first, end)


def bounds(tokens, first, end):
    return f"{tokens[first].start}-{tokens[end - 1].end}" if first < len(tokens) else END


def char_bounds(text, at):
    end = at + 1
    while end < len(text) and text[end] & 0xC0 == 0x80:
        end += 1
    return f"{at}-{end}"


def find(judge, queries):
    """The place of each query, a text with its message."""
    places = []
    for (text, message), (found, place) in zip(queries, judge.run([place_of(*it) for it in queries])):
        if found != message:
            sys.exit(f"{text[:200]}: the message is {message}, and {found} here")
        places.append(place)
    return places


def rejected_rows():
    """Each row with code 4: its file, the number of its line, its columns, its query and its message."""
    rows = SourceFileLoader("rows", str(ROOT / "bin" / "rows")).load_module()
    for path in sorted((ROOT / "rows").glob("*.tsv")):
        for number, line in enumerate(path.read_text(encoding="utf-8").split("\n")):
            columns = line.split("\t")
            if line and not line.startswith("#") and columns[2] == "4":
                query = rows.query_of(columns[0].split(" "), rows.field_text(columns[1]))
                yield path, number, columns, query.encode(), rows.field_text(columns[3])


def main(words):
    if not words or len(words) > 2 or words[1:] not in ([], ["--write"], ["--ask"]):
        sys.exit(__doc__)
    judge = Judge(words[0])
    if words[1:] == ["--ask"]:
        texts = [json.loads(line).encode() for line in sys.stdin]
        queries = [it for it in zip(texts, judge.messages(texts)) if it[1]]
        for (_, message), place in zip(queries, find(judge, queries)):
            print(f"{message}\t{place}")
        return
    rows = list(rejected_rows())
    places = find(judge, [(text, message) for *_, text, message in rows])
    files, differ = {}, 0
    for (path, number, columns, *_), place in zip(rows, places):
        if len(columns) == 4 and words[1:]:
            lines = files.setdefault(path, path.read_text(encoding="utf-8").split("\n"))
            lines[number] = "\t".join([*columns, place])
        elif columns[4:5] != [place]:
            differ += 1
            print(f"rows/{path.name}:{number + 1}: {columns[4:]}, and {place} here: {columns[1][:200]}")
    for path, lines in files.items():
        path.write_text("\n".join(lines), encoding="utf-8")
    print(f"{len(rows)} places, {differ} differ")
    sys.exit(1 if differ else 0)


if __name__ == "__main__":
    sys.setrecursionlimit(100_000)
    main(sys.argv[1:])
