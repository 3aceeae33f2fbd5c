"""Tests of Grafana's variables in queries."""

import json
import random
import re
import unittest
from collections import Counter
from pathlib import Path

import promql
from command_line import run
from grafana_queries import LAID_OUT, LEFT, QUERIES, VALUES, WRONG
from promql.checked_queries import QueryChecker
from promql.grafana_variables import VARIABLE, places_of, read_variables
from promql.queries import PlacedText
from test_dashboards import Folder

SPELLINGS = re.compile("|".join(map(re.escape, sorted(VALUES, key=len, reverse=True))))
ROOT = Path(__file__).resolve().parents[3]
TOKEN = re.compile(r"""(?s)"(?:[^"\\\n]|\\.)*"|'(?:[^'\\\n]|\\.)*'|`[^`]*`|[A-Za-z_:][\w:]*|[0-9][0-9a-zA-Z.]*|.""")
# Where packages of Debian, as ceph-grafana-dashboards, have theirs.
BOARDS = Path("/etc/grafana/dashboards")
WORDS = ("quer", "skipped")
PIECES = (
    '"$a"', "'${a}'", "`[[a]]`", '"x$a.*y"', '"\\\\$a"', '"\\$a"', "$a", "${b}", "[[c]]", "${d:raw}", "$__interval",
    "$__range_s", "[$a]", "[${a}s]", "[5m:$b]", "[[[c]]]", " offset $a", " @ $a", "foo", "sum", "(", ")", "{", "}", "=", "=~",
    ",", " ", "\n", " by ", "1", "0.", "+", " / ", "rate(", "[5m]", "#", "# it's\n", "é", "$1", "$", "${", "}", "[[", "]]",
    "zqvaa", "7000100", "1h11m11s100ms", "topk(", ":",
)  # fmt: skip


def read(query):
    text = PlacedText()
    text.put(query, 0)
    return read_variables(text, QueryChecker())


def with_values(query):
    """The query as Grafana would send it."""
    return SPELLINGS.sub(lambda found: VALUES[found[0]], query)


def spellings(query):
    return Counter(found[0] for found in VARIABLE.finditer(query))


class Queries(Folder):
    def board_of(self, query):
        return self.board(json.dumps(query))

    def formatted(self, query, style="people"):
        """The query as `format` writes it, where it does and says nothing."""
        path = self.board_of(query)
        ran = run("format", "--style", style, path)
        self.assertEqual((ran.status, ran.err), (0, ""), query)
        return json.loads(ran.out)["panels"][0]["targets"][0]["expr"]

    def test_set(self):
        """The set has each kind of spelling, and only what it has values for."""
        self.assertGreater(len(QUERIES), 60)
        for query in QUERIES:
            self.assertFalse(VARIABLE.search(with_values(query)), query)
            promql.check(with_values(query))

    def test_queries(self):
        """Each is accepted, and laid out means the same with the values of its variables; a second time nothing changes."""
        for query in QUERIES:
            with self.subTest(query):
                path = self.board_of(query)
                self.assertEqual(run("check", path), (0, f"{path}: 1 query, no errors\n", ""))
                for style in ("people", "pretty"):
                    new = self.formatted(query, style)
                    self.assertEqual(spellings(new), spellings(query))
                    self.assertEqual(promql.canonical(with_values(new)), promql.canonical(with_values(query)))
                    self.assertEqual(self.formatted(new, style), new)

    def test_without_white_space(self):
        """Where nothing but white space changes in a query with values, it is so with the variables."""
        for query in QUERIES:
            bare, new = ("".join(text.split()) for text in (with_values(query), promql.pretty(with_values(query))))
            if bare == new:
                for style in ("people", "pretty"):
                    self.assertEqual("".join(self.formatted(query, style).split()), "".join(query.split()))

    def test_laid_out(self):
        for query, wanted in LAID_OUT.items():
            self.assertIn(query, QUERIES)
            self.assertEqual(self.formatted(query, "pretty"), wanted)

    def test_left(self):
        for query in LEFT:
            path = self.board_of(query)
            ran = run("check", path)
            self.assertEqual(ran[:2], (0, f"{path}: 1 query, 1 skipped, no errors\n"), query)
            names = ", ".join(name.strip("${}[]") for name in spellings(query))
            note = f"it is not read with its variables of Grafana ({names}): `check --variable NAME=VALUE` gives them values\n"
            self.assertIn(f"{path}:2:11: skipped: {note}", ran.err)
            ran = run("format", path)
            self.assertEqual((ran.status, ran.out), (0, path.read_text()))
            self.assertIn(f"warning: left as it is: {note}", ran.err)

    def test_wrong(self):
        """An error where no variable is is an error, at its place."""
        for query, at, message in WRONG:
            path = self.board_of(query)
            ran = run("check", path)
            column = len('{"expr": "') + len(json.dumps(query[: query.rindex(at)])) - 1
            self.assertEqual((ran.status, ran.err.partition("\n")[0]), (4, f"{path}:2:{column}: {message}"))
            self.assertEqual(run("format", path).status, 4)

    def test_message(self):
        """A message names the variable, and not what stands in for it."""
        self.assertIn("'rate', got vector", run("check", self.board_of('rate(sum(a{b="$c"}))')).err)
        self.assertNotIn("zqv", run("check", self.board_of('label_replace(a, "$b", "$1")')).err)
        self.assertIn(": illegal regex for ((", run("check", self.board_of('a{b=~"((",c="$d"}')).err)

    def test_values(self):
        """With a value for each variable the query is checked with them; with some, the others are read as without."""
        path = self.board_of("a $op b offset $back")
        for options, status in (((), 0), (("op=+",), 0), (("op=and", "back=5m"), 0), (("op=+*",), 4), (("op=+", "back=x"), 4)):
            given = [word for option in options for word in ("--variable", option)]
            self.assertEqual(run("check", *given, path).status, status, options)
        self.assertIn("1 skipped", run("check", "--variable", "back=5m", path).out)

    def test_enforce(self):
        """A matcher is not put into a query whose variables may be anything."""
        path = self.board_of('up{job="$job"}')
        ran = run("format", "--enforce", 'a="b"', path)
        self.assertEqual((ran.status, ran.out), (2, ""))
        self.assertIn("not enforced: its variables of Grafana may have any values", ran.err)

    def test_comments(self):
        query = 'up{job="$job"} == 0 # it\'s $fine'
        self.assertEqual(self.formatted(query.replace(" ==", "==")), query)
        ran = run("format", "--style", "pretty", self.board_of(query))
        self.assertEqual(json.loads(ran.out)["panels"][0]["targets"][0]["expr"], query)
        self.assertIn("it has a comment, which would be lost", ran.err)

    def test_width(self):
        """Variables have their own width, so that a query of at most 100 columns is on one line."""
        for variable in ("$" + "a" * 40, "${" + "a" * 38 + "}"):
            query = f'sum({variable}{{job="{"b" * 46}"}})'
            self.assertEqual(len(query), 100)
            self.assertEqual(self.formatted(query), query)
            self.assertIn("\n", self.formatted(query.replace('b"', 'bb"')))


class Replaced(unittest.TestCase):
    """Queries whose tokens are made variables: with the tokens as values, what is laid out means what they mean."""

    def setUp(self):
        self.generator = random.Random(13)
        texts = (ROOT / "bench" / "queries" / "queries.txt").read_text(encoding="utf-8").splitlines()
        rows = (line.split("\t") for path in (ROOT / "rows").glob("*.tsv") for line in path.read_text("utf-8").split("\n"))
        texts += sorted(row[1] for row in rows if row[0] == "line" and len(row) > 3 and len(row[1]) < 300)
        self.queries = [text for text in texts if not re.search(r"[$#]|\[\[|[eE][-+]", text) and accepts(text)]

    def replaced(self, query):
        """The query with up to three of its tokens, or parts of strings, as variables; and what they stand for."""
        tokens = TOKEN.findall(query)
        places = [number for number, token in enumerate(tokens) if re.match(r"[\w\"'`]", token, re.ASCII)]
        values = {}
        for number, place in enumerate(self.generator.sample(places, min(len(places), self.generator.randrange(1, 4)))):
            token, spelling = tokens[place], self.generator.choice(("${v%d}", "${v%d:raw}", "[[v%d]]")) % number
            start, end = (1, len(token) - 1) if token[0] in "\"'`" else (0, len(token))
            if "\\" not in token and start < end:
                values[spelling] = token[start:end]
                tokens[place] = token[:start] + spelling + token[end:]
        return "".join(tokens), values

    def test_meaning(self):
        accepted = 0
        for _ in range(2500):
            query = self.generator.choice(self.queries)
            text, values = self.replaced(query)
            reading = read(text)
            if not values or not accepts(reading.text.text) or not accepts(reading.variables.text):
                continue
            width = self.generator.choice((20, 60, 100, 1000))
            new = reading.variables.come_back(promql.pretty(reading.variables.text, width=width))
            if new is None:
                continue
            accepted += 1
            for spelling, value in values.items():
                new = new.replace(spelling, value)
            self.assertEqual(promql.canonical(new), promql.canonical(query), text)
        self.assertGreater(accepted, 1200)


def accepts(query):
    try:
        promql.check(query)
    except promql.QueryError:
        return False
    return True


@unittest.skipUnless(BOARDS.is_dir(), "there are no dashboards of packages here")
class Packages(Folder):
    def test_dashboards(self):
        """The dashboards of packages: hardly a query is left, and what is laid out is laid out so again."""
        texts = [path.read_text(encoding="utf-8") for path in sorted(BOARDS.rglob("*.json"))]
        said = []
        for text in texts:
            path = self.folder / "a.json"
            path.write_text(text, encoding="utf-8")
            said.append(run("check", path))
            self.assertEqual(run("format", "--write", path).status, 0)
            self.assertEqual(run("format", "--check", path)[:2], (0, ""))
            new = path.read_text(encoding="utf-8")
            self.assertEqual(spellings(new), spellings(text))
        queries, skipped = (
            sum(int(found) for ran in said for found in re.findall(rf"(\d+) {word}", ran.out)) for word in WORDS
        )
        self.assertLess(20 * skipped, queries)
        self.assertEqual(max(ran.status for ran in said), 0)


class StandIns(unittest.TestCase):
    def test_texts_in_the_query(self):
        """What stands in for a variable is nowhere else in the query, also where it is made to be."""
        for query in (
            'zqvaa + $x + zqv + zqvv{zqvvv="zqvvvv"}',
            "topk($x, a > 7000100 + 7001100)",
            "rate(a[$x]) + rate(b[1h11m11s100ms]) + rate(c[2h11m11s100ms])",
            "stdvar($x(a)) + sgn(a) + group(b)",
            'a{$x,zqvaa="zqvaa"}',
        ):
            reading = read(query)
            self.assertEqual(reading.unknown, "")
            new = reading.variables.come_back(promql.pretty(reading.variables.text))
            self.assertEqual(spellings(new), spellings(query))
            self.assertEqual(new.count("zqv"), query.count("zqv"))

    def test_made_twice(self):
        """Where printing makes a stand-in of something else, nothing comes back."""
        variables = read("topk($x, a) + 0x6ad024").variables
        self.assertEqual(variables.text, "topk(7000100, a) + 0x6ad024")
        self.assertIsNone(variables.come_back(promql.pretty(variables.text)))
        variables = read("rate(a[$x]) + rate(b[4271100ms])").variables
        self.assertIsNone(variables.come_back(promql.pretty(variables.text)))

    def test_at_random(self):
        """Whatever is accepted comes back with the same variables, and is read and laid out as before; nothing raises."""
        generator, accepted = random.Random(9), 0
        choices = (*QUERIES, *LEFT, *(query for query, *_ in WRONG))
        for number in range(4000):
            if number % 2:
                query = "".join(generator.choices(PIECES, k=generator.randrange(1, 12)))
            else:
                query = generator.choice(choices)
                at = generator.randrange(len(query))
                query = query[:at] + generator.choice(("", *PIECES)) + query[at + generator.randrange(2) :]
            if VARIABLE.search(query):
                accepted += self.check_reading(query)
        self.assertGreater(accepted, 400)

    def check_reading(self, query):
        reading = read(query)
        try:
            promql.check(reading.text.text)
            text = promql.pretty(reading.variables.text)
        except promql.QueryError:
            return False
        new = reading.variables.come_back(text)
        if new is None or "#" in query:
            return False
        self.assertEqual(spellings(new), spellings(query), query)
        again = read(new)
        self.assertEqual(again.variables.come_back(promql.pretty(again.variables.text)), new, query)
        self.assertEqual(reading.variables.put_back(reading.variables.text), query)
        return True

    def test_offsets(self):
        """Each character that is read has the place of one of the query."""
        for query in QUERIES:
            made = read(query).text
            self.assertEqual(len(made.text), len(made.offsets))
            self.assertEqual([*made.offsets], sorted(made.offsets))
            for character, offset in zip(made.text, made.offsets):
                self.assertTrue(character == query[offset] or VARIABLE.search(query, max(0, offset - 3)), query)

    def test_no_variables(self):
        """A name in braces that another sign than `:` or `.` follows is none, also where a brace comes later."""
        for query in ('a{b="${c", d="e"}', 'a{b="${c}"} + b{c="${ d }"}'):
            reading = read(query)
            self.assertEqual([query[it.start : it.end] for it in places_of(query)], ['"${c}"'] * query.count("${c}"))
            promql.check(reading.text.text)

    def test_words_with_colons(self):
        """A variable is a part of the word that it touches, and no length of time after `offset`."""
        self.assertEqual([it.kinds for it in places_of("a offset $b:c + max_over_time(d[$e:$f])")], [("word",), ("duration",), ("duration",)])

    def test_dear(self):
        """What is made to be dear takes no time."""
        for query in (
            "${" * 100_000,
            "[[" * 100_000,
            "$a " * 100_000,
            "$a + " * 100_000 + "1",
            '"$a' * 50_000,
            "$a(" * 5000,
            "\\" * 100_000 + "$a",
        ):
            self.assertIsNotNone(read(query))


if __name__ == "__main__":
    unittest.main()
