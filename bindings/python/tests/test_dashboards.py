"""Tests of `promql-rules` with dashboards, and without a reader of YAML."""

import json
import random
import tempfile
import unittest
from pathlib import Path
from unittest import mock

import promql
from command_line import run
from promql.dashboards import JsonString
from promql.files import look_for_reader
from promql.queries import Edit

HERE = Path(__file__).resolve().parent
FILES = HERE / "files"
ROOT = HERE.parents[2]
BOARD = FILES / "board.json"
# The queries of a dashboard that are rejected: what the file has, the column from the beginning of the string, and the mark.
PLACES = (
    ('"up ="', 5, "^"),
    ('"sum(rate(foo))"', 11, "^~~"),
    ('"{a=~\\"(\\"}"', 6, "^~~~~"),
    ('"\\u0061\\u0062 c"', 15, "^"),
    ('"{a=\\"\\ud83e\\udd80\\/\\"} b"', 25, "^"),
    ('"a +\\n  rate(foo)"', 14, "^~~"),
    ('"é🦀"', 2, "^"),
)


class Folder(unittest.TestCase):
    def setUp(self):
        folder = tempfile.TemporaryDirectory()
        self.addCleanup(folder.cleanup)
        self.folder = Path(folder.name)

    def board(self, expression, before="", name="a.json"):
        """A dashboard with one query, as JSON has it."""
        path = self.folder / name
        path.write_text(f'{{"panels": [{{{before}"targets": [\n{{"expr": {expression}}}]}}]}}\n', encoding="utf-8")
        return path


class Boards(Folder):
    def test_format(self):
        wanted = (FILES / "board.formatted.json").read_text(encoding="utf-8")
        pretty = ("format", "--style", "pretty")
        ran = run(*pretty, BOARD)
        self.assertEqual((ran.status, ran.out), (0, wanted))
        self.assertEqual(
            [line.split("warning: left as it is: ")[1] for line in ran.err.splitlines() if "not looked at" not in line],
            [
                "its data source is of the type loki",
                "it has a comment, which would be lost",
            ],
        )
        self.assertEqual(run(*pretty, "--check", FILES / "board.formatted.json")[:2], (0, ""))
        self.assertEqual(run(*pretty, "--check", BOARD)[:2], (19, f"{BOARD}\n"))

    def test_default(self):
        """Without a style queries are laid out for people, with their comments."""
        ran = run("format", BOARD)
        self.assertEqual(ran, run("format", "--style", "people", BOARD))
        self.assertIn("# down", ran.out)
        self.assertNotIn("it has a comment", ran.err)
        self.assertEqual(run("format", "--check", "-", "--dashboard", stdin=ran.out.encode())[:2], (0, ""))

    def test_write(self):
        path = self.board('"a+b"', name="other")
        self.assertEqual(run("format", "--dashboard", "--write", path), (0, "", ""))
        self.assertEqual(path.read_text(), '{"panels": [{"targets": [\n{"expr": "a + b"}]}]}\n')

    def test_escapes(self):
        """A file of ASCII stays one, and one that is none gets no escapes."""
        query = '"{a=\\"\\u00e9\\"}+1"'
        self.assertIn('"{a=\\"\\u00e9\\"} + 1"', run("format", self.board(query)).out)
        self.assertIn('"{a=\\"é\\"} + 1"', run("format", self.board(query, before='"title": "é", ')).out)

    def test_comparison(self):
        """A text that would be another query, or another dashboard, is not written."""
        path = self.board('"a+b"')
        for wrong in ('"a + c"', '"a + b", "c": 1', '"a + b', "5", '"a + b # c"', '"a+b "'):
            with mock.patch.object(JsonString, "edit", lambda self, text, wrong=wrong: Edit(self.start, self.end, wrong)):
                ran = run("format", path)
            self.assertEqual((ran.status, ran.out), (12, ""), wrong)
            self.assertIn("would not be read as the same", ran.err)

    def test_check(self):
        ran = run("check", BOARD)
        self.assertEqual(ran[:2], (0, f"{BOARD}: 8 queries, 1 skipped, no errors\n"))
        self.assertIn(f"{BOARD}:12:19: skipped: its data source is of the type loki", ran.err)
        given = ("--variable", "job=shop", "--variable", "__rate_interval=5m")
        self.assertEqual(run("check", *given, BOARD)[:2], (0, f"{BOARD}: 8 queries, 1 skipped, no errors\n"))
        self.assertEqual(run("check", *given[:2], "--variable", "__rate_interval=5x", BOARD).status, 4)
        self.assertEqual(run("check", "--dashboard", "-", stdin=BOARD.read_bytes()).status, 0)

    def test_statuses(self):
        for command in ("check", "format"):
            for text, message in (
                ('{"a": [', ":1:8: not JSON: "),
                ("{'a'}", ":1:2: not JSON: "),
                ("[" * 100_000, ": nested too deeply"),
            ):
                path = self.folder / "a.json"
                path.write_text(text)
                ran = run(command, path)
                self.assertEqual((ran.status, ran.out), (2, ""))
                self.assertTrue(ran.err.startswith(f"{path}{message}"), ran.err)
        self.assertEqual(run("check", self.board('"a b"')).status, 4)
        self.assertEqual(run("format", self.board('"a b"')).status, 4)

    def test_other_places(self):
        for text in (
            '{"expr": "a b"}',
            '{"targets": {"expr": "a b"}}',
            '{"targets": [{"expr": 5}]}',
            '{"targets": ["expr"]}',
            '["targets", "expr"]',
            "5",
            '"expr"',
        ):
            path = self.folder / "a.json"
            path.write_text(text)
            self.assertEqual(run("check", path)[:2], (66, f"{path}: no queries, no errors\n"))
            self.assertEqual(run("format", path)[:2], (0, text))

    def test_data_sources(self):
        for source, status in (
            ('"P1"', 4),
            ("null", 4),
            ('{"uid": "p"}', 4),
            ('{"type": "prometheus"}', 4),
            ('{"type": "datasource", "uid": "-- Mixed --"}', 4),
            ('{"type": "grafana-amazonprometheus-datasource"}', 4),
            ('{"type": "loki"}', 0),
            ('{"type": "elasticsearch"}', 0),
        ):
            self.assertEqual(run("check", self.board('"a b"', before=f'"datasource": {source}, ')).status, status, source)

    def test_keys_twice(self):
        path = self.folder / "a.json"
        path.write_text('{"targets": [{}, {"expr": "a b"}], "targets": []}')
        self.assertEqual(run("check", path).status, 4)


class Places(Folder):
    def test_strings(self):
        for string, column, mark in PLACES:
            path = self.board(string)
            ran = run("check", path)
            line = f'{{"expr": {string}}}]}}]}}'
            self.assertTrue(ran.err.startswith(f"{path}:2:{column + 9}: "), ran.err)
            self.assertTrue(ran.err.endswith(f"\n{line}\n{' ' * (column + 8)}{mark}\n"), ran.err)

    def test_surrogates(self):
        path = self.board('"a{b=\\"\\ud800\\"}"')
        self.assertIn(":2:17: half of a surrogate pair\n", run("check", path).err)

    def test_variables(self):
        for string, given, status, column in (
            ('"rate(a[$x])"', "x=5m", 0, 0),
            ('"rate(a[${x}])"', "x=5m", 0, 0),
            ('"rate(a[${x:raw}])"', "x=5m", 0, 0),
            ('"rate(a[[[x]]])"', "x=5m", 0, 0),
            ('"rate(a[[[x:raw]]])"', "x=5m", 0, 0),
            ('"rate(a[$x]) b"', "x=5m", 4, 14),
            ('"rate(a[${x}]) b"', "x=5m", 4, 16),
            ('"rate(a[$x])"', "x=5y5y", 4, 9),
            ('"$x + c d"', "x=a_long_name", 4, 9),
            ('"label_replace(a, \\"b\\", \\"${x}\\", \\"c\\", \\"d\\")"', "x=${x}", 0, 0),
            ('"a{b=\\"$1\\",c=~\\"d$\\"} b"', "x=1", 4, 24),
        ):
            path = self.board(string)
            ran = run("check", "--variable", given, path)
            self.assertEqual(ran.status, status, (string, ran))
            if status:
                self.assertTrue(ran.err.startswith(f"{path}:2:{column + 9}: "), ran.err)

    def test_options(self):
        for wrong in ("x", "=5", "a b=5", "5=x"):
            self.assertEqual(run("check", "--variable", wrong, BOARD).status, 64)


class Random(Folder):
    def test_boards(self):
        """Dashboards of queries of the rows, written in several ways: only queries change, and a second time nothing does."""
        generator = random.Random(5)
        rows = [line.split("\t") for line in (ROOT / "rows" / "dashboards.tsv").read_text(encoding="utf-8").split("\n")]
        queries = [row[1] for row in rows if row[0] == "line" and "#" not in row[1]]
        for _ in range(60):
            targets = [
                {"refId": str(n), "expr": generator.choice(queries), "n": generator.random()}
                for n in range(generator.randrange(9))
            ]
            board = {"panels": [{"panels": [{"targets": targets}], "expr": "a+b"}], "title": '{["\\ é'}
            path = self.folder / "a.json"
            path.write_text(
                json.dumps(board, indent=generator.choice((None, 2)), ensure_ascii=generator.random() < 0.5), encoding="utf-8"
            )
            ran = run("format", path)
            self.assertEqual((ran.status, ran.err.count("\n")), (0, 1))
            self.assertIn("warning: not looked at: an `expr`", ran.err)
            for target in targets:
                target["expr"] = promql.format(target["expr"])
            self.assertEqual(json.loads(ran.out), board)
            path.write_text(ran.out, encoding="utf-8")
            self.assertEqual(run("format", "--check", path)[:2], (0 if targets else 66, ""))


class WithoutYaml(Folder):
    def test_message(self):
        path = self.folder / "a.yml"
        path.write_text("groups: []\n")
        look_for_reader.cache_clear()
        self.addCleanup(look_for_reader.cache_clear)
        with mock.patch.dict("sys.modules", {"ruamel.yaml": None}):
            for command in ("check", "format"):
                ran = run(command, path)
                self.assertEqual((ran.status, ran.out), (2, ""))
                self.assertEqual(
                    ran.err, "rule files need ruamel.yaml: install python3-ruamel.yaml, or `pip install ruamel.yaml`\n"
                )
            self.assertEqual(run("check", BOARD).status, 0)


if __name__ == "__main__":
    unittest.main()
