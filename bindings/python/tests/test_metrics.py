"""Tests of `promql-rules metrics`: what files use, and what a server has of it."""

import importlib.util
import json
import time
import unittest
from pathlib import Path

from command_line import run
from hostile import answering, http
from rule_verdicts import RULES
from test_live_checks import rules
from test_rule_files import Folder

SCHEMA = Path(__file__).resolve().parents[2] / "schema" / "metrics.schema.json"
HAS_SCHEMAS = importlib.util.find_spec("jsonschema") is not None
# The metrics of the server, and those that selectors without a name select.
NAMES = {"": ["go_info", "job:up:sum", "up", "wanted_bytes", "wanted_total"], '{__name__=~"wanted.*"}': ["wanted_bytes", "wanted_total"]}
RECORDS = RULES + "  - record: job:up:sum\n    expr: sum by (job) (up)\n  - record: job:new:sum\n    expr: |\n      # new\n      sum by (job) (new)\n"


def names(file, path, asked):
    assert path == "/api/v1/label/__name__/values", path
    file.write(http(json.dumps({"status": "success", "data": NAMES.get("".join(asked.get("match[]", ())), [])})))


class Metrics(Folder):
    def made(self, *options, status=0, folder=""):
        """What is printed as JSON, and to standard error."""
        ran = run("metrics", "--output", "json", *options, self.folder / folder)
        self.assertEqual(ran.status, status, ran.err)
        made = json.loads(ran.out.replace(f"{self.folder}/", ""))
        if HAS_SCHEMAS:
            import jsonschema

            jsonschema.Draft202012Validator(json.loads(SCHEMA.read_text())).validate(made)
        return made, ran.err.replace(f"{self.folder}/", "")

    def test_uses(self):
        self.file(RECORDS, "records.yml")
        self.file(rules("job:up:sum > 1", 'rate(errors_total{code=~"5.."}[5m]) / on (job, x) group_left (y) {"a.b", z="1"} + errors_total'), "alerts.yml")
        made, err = self.made()
        self.assertEqual(err, "")
        self.assertEqual((made["unused"], made["variables"], made["selectors"]), (None, [], []))
        found = {it["name"]: (it["recorded"], [f"{at['file']}:{at['line']}" for at in it["places"]]) for it in made["metrics"]}
        wanted = {
            "a.b": (False, ["alerts.yml:7"]),
            "errors_total": (False, ["alerts.yml:7"]),
            "job:new:sum": (True, []),
            "job:up:sum": (True, ["alerts.yml:5"]),
            "new": (False, ["records.yml:8"]),
            "up": (False, ["records.yml:5"]),
        }
        self.assertEqual(found, wanted)
        self.assertEqual(list(found), sorted(wanted))
        self.assertEqual({it["name"] for it in made["labels"]}, {"code", "job", "x", "y", "z"})
        self.assertEqual({it["onServer"] for it in made["metrics"]}, {None})

    def test_server(self):
        self.file(RECORDS + '  - alert: A\n    expr: up + nope > count({__name__=~"wanted.*"}) + {job="x"}\n')
        with answering(names) as server:
            made, err = self.made("--prometheus", server.url)
        self.assertEqual((err, len(server.asked)), ("", 3))
        self.assertEqual({it["name"]: it["onServer"] for it in made["metrics"]}, {"job:new:sum": False, "job:up:sum": True, "new": False, "nope": False, "up": True})
        self.assertEqual([(it["name"], it["selected"]) for it in made["selectors"]], [('{__name__=~"wanted.*"}', ["wanted_bytes", "wanted_total"]), ('{job="x"}', [])])
        # (nothing uses what is recorded there)
        self.assertEqual(made["unused"], ["go_info", "job:up:sum"])

    def test_table(self):
        self.file(RECORDS + '  - alert: A\n    expr: nope > {job="x"}\n' + "  - alert: B\n    expr: up\n" * 3)
        with answering(names) as server:
            ran = run("metrics", "--prometheus", server.url, self.folder)
        self.assertEqual(
            ran.out.replace(f"{self.folder}/", ""),
            "METRICS: 5\n"
            "  job:new:sum  recorded      0\n"
            "  job:up:sum   recorded      0\n"
            "  new          missing       1  a.yml:8\n"
            "  nope         missing       1  a.yml:11\n"
            "  up                         4  a.yml:5, a.yml:13, a.yml:15 and 1 more\n"
            "SELECTORS: 1\n"
            '  {job="x"}  missing      1  a.yml:11\n'
            "LABELS: 1\n"
            "  job        3  a.yml:5, a.yml:8, a.yml:11\n"
            "UNUSED: 4\n"
            "  go_info\n"
            "  job:up:sum\n"
            "  wanted_bytes\n"
            "  wanted_total\n",
        )

    def test_variables(self):
        targets = [{"expr": it} for it in ('up{job=~"$job"}', "rate($metric[5m])", 'sum by ($by, b) ({__name__=~"$a.*"})')]
        variables = [{"type": "query", "query": "label_values(node_info, host)"}, {"type": "query", "query": "query_result(topk(1, other{x='y'}))"}]
        board = {"panels": [{"targets": targets}], "templating": {"list": variables}}
        self.file(json.dumps(board), "a.json")
        with answering(names) as server:
            made, _ = self.made("--prometheus", server.url)
        self.assertEqual([it["name"] for it in made["metrics"]], ["node_info", "other", "up"])
        self.assertEqual([it["name"] for it in made["labels"]], ["b", "job", "x"])
        self.assertEqual([it["name"] for it in made["variables"]], ["$by", "$metric", '{__name__=~"$a.*"}'])
        self.assertEqual(len(server.asked), 1)

    def test_rejected(self):
        """A rejected query is reported, and the others go on; unit tests use nothing."""
        self.file(rules("sum(", "up"))
        self.file("groups: [\n", "b.yml")
        self.file("tests:\n- input_series: []\n  promql_expr_test:\n  - expr: tested\n    eval_time: 1m\n    exp_samples: []\n", "c.yml")
        made, err = self.made(status=2)
        self.assertEqual([it["name"] for it in made["metrics"]], ["up"])
        self.assertTrue("a.yml:5:16: unclosed left parenthesis" in err and "b.yml:" in err, err)
        (self.folder / "b.yml").unlink()
        self.made(status=4)

    def test_jobs(self):
        for number in range(6):
            self.file(rules(f"up + m{number}"), f"{number}.yml")
        self.assertEqual(self.made(), self.made("--jobs", "3"))

    def test_nothing(self):
        self.file("groups: []\n")
        ran = run("metrics", self.folder)
        self.assertEqual((ran.status, ran.out), (66, ""))

    def test_hostile(self):
        self.file(rules('up + {job="x"}'))
        for answer, text in (
            (http("<html>", kind="text/html"), "no answer of a Prometheus, but text/html"),
            (http('{"status":"success","data":{"a":1}}'), "an answer without names of metrics"),
            (http('{"status":"success","data":["a",1]}'), "an answer without names of metrics"),
            (http('{"status":"error","error":"no match"}', "400 Bad Request"), "status 400 Bad Request: no match"),
            (http("x" * 5_000_000), "an answer of more than 4,194,304 bytes (--max-answer)"),
        ):
            with self.subTest(text), answering(answer) as server:
                made, err = self.made("--prometheus", server.url.replace("//", "//name:secret@"), status=2)
                self.assertEqual((made["unused"], made["metrics"][0]["onServer"], made["selectors"][0]["selected"]), (None, None, None))
                self.assertTrue(err.startswith(f"{server.url}: {text}"), err)
        with answering(names) as server:
            made, err = self.made("--prometheus", server.url, "--max-requests", "1", status=2)
            self.assertIn("more than 1 requests (--max-requests)", err)
        # What a terminal obeys is not shown.
        with answering(http(json.dumps({"status": "success", "data": ["a\x1b[2Jb"]}))) as server:
            self.assertNotIn("\x1b", run("metrics", "--prometheus", server.url, self.folder).out)

    def test_many(self):
        """Long names and many uses cost a time and a memory that grow with the file."""
        self.file(rules(f"{{{json.dumps('a' * 30_000)}}}", *(f"m{number} + up" for number in range(9_000))))
        start = time.process_time()
        ran = run("metrics", self.folder)
        self.assertEqual(ran.status, 0)
        self.assertLess(len(ran.out), 2_000_000)
        self.assertLess(time.process_time() - start, 8)


if __name__ == "__main__":
    unittest.main()
