"""Tests of what the commands over files print for other programs: JSON, SARIF, annotations of GitHub, and results of tests as JUnit has them."""

import json
import unittest
from xml.etree import ElementTree

from command_line import run
from rule_verdicts import AFTER_ALERT, RULES
from test_rule_files import NO_QUERY, Folder

BROKEN = AFTER_ALERT.replace("expr: up", "expr: up ==").replace("alert: B", "alert: B\n    for: 5")
OTHER = "alerts:\n  a: {expr: up}\n"
FINDINGS = RULES + "  - alert: A\n    expr: up{job=~'a'} == 0\n  - alert: B\n    expr: (up) == 0\n"
FORMATS = ("json", "sarif", "github", "junit")


class Reports(Folder):
    def setUp(self):
        super().setUp()
        self.files = {}
        for name, text in {"bad.yml": BROKEN, "fine.yml": AFTER_ALERT, "left.yaml": OTHER, "not.yml": "groups: ["}.items():
            self.files[name] = self.folder / name
            self.files[name].write_text(text)

    def messages(self, *arguments):
        return json.loads(run(*arguments, "--output", "json", self.folder).out)

    def test_json(self):
        ran = run("check", "--output", "json", self.folder, "/nowhere")
        found = json.loads(ran.out)
        self.assertEqual(ran.status, 2)
        kinds = [(it["file"].rpartition("/")[2], it["line"], it["code"], it["severity"]) for it in found]
        self.assertEqual(
            kinds,
            [
                ("bad.yml", 5, "rule", "error"),
                ("bad.yml", 6, "P001", "error"),
                ("left.yaml", None, "unread", "warning"),
                ("not.yml", 1, "file", "error"),
                ("nowhere", None, "file", "error"),
            ],
        )
        for message in found:
            self.assertIn(f"{message['file']}:", ran.err)
            self.assertIn(message["message"], ran.err)
            self.assertNotIn(message["file"], message["message"])
        self.assertEqual((found[0]["column"], found[0]["endColumn"]), (10, 11))

    def test_alike(self):
        """All commands have what they say in the report, and print nothing else to standard output."""
        self.files["not.yml"].unlink()
        for command, codes in (
            (("check",), ["rule", "P001", "unread"]),
            (("lint",), ["P001", "P501", "unread"]),
            (("format", "--check"), ["P001", "unread"]),
        ):
            self.assertEqual([it["code"] for it in self.messages(*command)], codes)
            for kind in FORMATS:
                for jobs in (1, 3):
                    self.assertEqual(
                        run(*command, "--output", kind, "--jobs", jobs, self.folder), run(*command, "--output", kind, self.folder)
                    )

    def test_layout(self):
        path = self.file(FINDINGS, "a.yml")
        ran = run("format", "--check", "--output", "json", path)
        self.assertEqual([(it["line"], it["code"], it["message"]) for it in json.loads(ran.out)], [(5, "layout", "laid out otherwise")])
        self.assertEqual(ran.status, 19)
        self.assertEqual(run("format", "--output", "json", path).status, 64)
        self.assertEqual(run("format", "--write", "--output", "json", path)[:2], (0, "[]\n"))

    def test_sarif(self):
        ran = run("check", "--output", "sarif", self.folder)
        (made,) = json.loads(ran.out)["runs"]
        self.assertEqual(made["tool"]["driver"]["name"], "promql-rules check")
        self.assertEqual([it["id"] for it in made["tool"]["driver"]["rules"]], ["P001", "file", "rule", "unread"])
        self.assertEqual([it["level"] for it in made["results"]], ["error", "error", "warning", "error"])
        self.assertFalse(made["invocations"][0]["executionSuccessful"])
        for result in made["results"]:
            self.assertEqual(made["tool"]["driver"]["rules"][result["ruleIndex"]]["id"], result["ruleId"])
        path = self.file(BROKEN, "a b%é.yml")
        (made,) = json.loads(run("check", "--output", "sarif", path).out)["runs"]
        place = made["results"][0]["locations"][0]["physicalLocation"]
        self.assertTrue(place["artifactLocation"]["uri"].endswith("/a%20b%25%C3%A9.yml"))
        self.assertEqual(place["region"], {"startLine": 5, "startColumn": 10, "endLine": 5, "endColumn": 11})

    def test_github(self):
        path = self.file(BROKEN, "a,b%:\x1b.yml")
        lines = run("check", "--output", "github", path).out.splitlines()
        name = str(path).replace("%", "%25").replace(",", "%2C").replace(":", "%3A").replace("\x1b", "\\x1b")
        self.assertEqual(lines[0], f"::error file={name},line=5,col=10,endLine=5,endColumn=11,title=rule::`for` is not a duration")
        self.assertEqual(len(lines), 2)
        lines = run("lint", "--output", "github", self.file(FINDINGS)).out.splitlines()
        self.assertEqual([line.split(" ")[0] for line in lines], ["::warning", "::notice"])

    def test_junit(self):
        self.file(BROKEN, "<\x1b&\">.yml")
        ran = run("check", "--output", "junit", self.folder)
        suites = ElementTree.fromstring(ran.out)
        (suite,) = suites
        self.assertEqual((suite.get("tests"), suite.get("failures"), suite.get("errors")), ("7", "4", "1"))
        self.assertEqual(len(suite), 7)
        self.assertEqual(sum(len(case.findall("failure")) for case in suite), 4)
        self.assertIn("<\\x1b&\">.yml:5:10 rule", suite[0].get("name"))
        self.assertIn("skipped", suite[5].find("system-out").text)

    def test_empty(self):
        self.assertEqual(run("check", self.file("groups: []\n")).err, NO_QUERY)
        for kind in FORMATS:
            ran = run("check", "--output", kind, self.file("groups: []\n"))
            self.assertEqual((ran.status, ran.err), (66, NO_QUERY))
            self.assertIn("no query was found in 1 file", ran.out)

    def test_fail_on(self):
        path = self.file(FINDINGS)
        for severity, status in (("error", 0), ("warning", 1), ("info", 1)):
            self.assertEqual(run("lint", "--fail-on", severity, path).status, status, severity)
        self.assertEqual(run("lint", "--fail-on", "warning", "--ignore", "P103", path).status, 0)
        twice = self.file(AFTER_ALERT + "  - alert: B\n    expr: up\n")
        for severity, status in (("error", 0), ("warning", 1)):
            self.assertEqual(run("check", "--fail-on", severity, twice).status, status)
        self.assertEqual(run("check", "--fail-on", "error", self.file(BROKEN)).status, 4)
        self.assertEqual(run("check", "--fail-on", "none", twice).status, 64)


class Refused(Folder):
    """What the target rejects of queries that are formatted."""

    QUERIES = ("rate( foo{a='1' or b='2'}[5m])", "up == 0", "sum(exp(Inf))", "rate(+foo[5m])")
    OR = "Prometheus 3 rejects this: it knows no `or` between matchers"
    EXP = "Prometheus 3 rejects this: the argument is an instant vector there; write vector(..) around the number"
    PLUS = "Prometheus 3 rejects this: a sign is before numbers and instant vectors only there; leave it out"
    FOUND = [(5, 27, 5, 29, OR), (9, 15, 9, 18, EXP), (11, 16, 11, 17, PLUS)]

    def setUp(self):
        super().setUp()
        rules = "".join(f"  - record: a{number}\n    expr: {query}\n" for number, query in enumerate(self.QUERIES))
        self.path = self.file("groups:\n- name: a\n  rules:\n" + rules)
        self.formatted = self.path.read_text().replace("rate( ", "rate(").replace("'", '"')

    def warnings(self, *options, command=("format", "--check")):
        """The places and the messages of the warnings."""
        found = [it for it in json.loads(run(*command, "--output", "json", *options, self.path).out) if it["severity"] == "warning"]
        self.assertEqual({it["code"] for it in found} - {"P001"}, set())
        return [(it["line"], it["column"], it["endLine"], it["endColumn"], it["message"]) for it in found]

    def test_text(self):
        for options, status, out in ((("--check",), 19, f"{self.path}\n"), ((), 0, self.formatted), (("--write",), 0, "")):
            ran = run("format", *options, self.path)
            self.assertEqual((ran.status, ran.out), (status, out))
            self.assertTrue(ran.err.startswith(f"{self.path}:5:27: warning: {self.OR}\n    expr: rate( foo{{a='1' or"), ran.err)
            self.assertEqual(ran.err.count("warning: "), 3)
        self.assertEqual(self.path.read_text(), self.formatted)
        # (and where nothing changes)
        self.assertEqual(run("format", "--check", self.path)[:2], (0, ""))
        self.assertEqual(self.warnings(), [(5, 26, 5, 28, self.OR), *self.FOUND[1:]])

    def test_reports(self):
        for command in (("format", "--check"), ("format", "--diff"), ("format", "--check", "--jobs", "2")):
            self.assertEqual(self.warnings(command=command), self.FOUND)
        run_sarif, = json.loads(run("format", "--check", "--output", "sarif", self.path).out)["runs"]
        found = [(it["ruleId"], it["message"]["text"]) for it in run_sarif["results"] if it["level"] == "warning"]
        self.assertEqual(found, [("P001", message) for *_, message in self.FOUND])
        self.assertTrue(run_sarif["invocations"][0]["executionSuccessful"])
        lines = run("format", "--check", "--output", "github", self.path).out.splitlines()
        place = "line=5,col=27,endLine=5,endColumn=29"
        self.assertEqual(lines[1], f"::warning file={self.path},{place},title=P001::{self.OR}")
        self.assertEqual([line.split(" ")[0] for line in lines], ["::error", "::warning", "::warning", "::warning"])
        # (as JUnit has warnings: beside what fails there is nothing of them)
        suite, = ElementTree.fromstring(run("format", "--check", "--output", "junit", self.path).out)
        self.assertEqual((suite.get("failures"), suite.get("tests")), ("1", "1"))
        suite, = ElementTree.fromstring(run("format", "--write", "--output", "junit", self.path).out)
        told = [it.text for it in suite[0].findall("system-out")]
        self.assertEqual((suite.get("failures"), told[0]), ("0", f"{self.path}:5:27: warning P001: {self.OR}"))
        self.assertEqual(len(told), 3)

    def test_fail_on(self):
        for severity, status in (("error", 0), ("warning", 24)):
            ran = run("format", "--fail-on", severity, self.path)
            self.assertEqual((ran.status, ran.out), (status, self.formatted))
        (self.folder / ".promql.toml").write_text('fail-on = "warning"\n')
        self.assertEqual(run("format", "--write", self.path).status, 24)
        self.assertEqual(self.path.read_text(), self.formatted)

    def test_what_is_written_counts(self):
        self.assertEqual(self.warnings("--target", "rules"), [])
        self.assertEqual(self.warnings("--keep-spelling"), self.FOUND)
        self.assertEqual(self.warnings("--keep-spelling", "--target", "rules"), [])
        # (a plus is not printed)
        self.assertEqual(self.warnings("--style", "pretty"), self.FOUND[:2])
        self.assertEqual(self.warnings("--enforce", "b='c'"), self.FOUND[:2])
        self.path.write_text(RULES + "  - record: a\n    expr: a[300]\n  - record: b\n    expr: a[9223372037]\n  - record: c\n    expr: b\n")
        old = ("--target", "prometheus-2.42")
        kept = "Prometheus 2.42 rejects this: a length of time without a unit is of a later version; write 300s for 300"
        self.assertEqual(self.warnings(), [])
        self.assertEqual(self.warnings(*old), [(7, 13, 7, 23, kept)])
        self.assertEqual(self.warnings("--keep-spelling", *old), [(5, 13, 5, 16, kept), (7, 13, 7, 23, kept)])
        # (the duration that is printed for a number is not in the query)
        self.assertEqual([it[:4] for it in self.warnings("--style", "pretty")], [(7, 11, 7, 24)])
        # (nor is the matcher)
        found = self.warnings("--enforce", '"x y"="z"', *old)
        self.assertEqual([it[:4] for it in found], [(5, 11, 5, 17), (7, 11, 7, 24), (9, 11, 9, 12)])
        self.assertEqual(found[2][4], "Prometheus 2.42 rejects this: names in quotes are of a later version")

    def test_variables(self):
        self.path = self.file(json.dumps({"panels": [{"targets": [{"expr": "rate( $metric{a=\"$a\" or b='c'}[$__range])"}]}]}), "a.json")
        self.assertEqual(self.warnings(), [(1, 59, 1, 61, self.OR)])
        self.assertIn(r'rate($metric{a=\"$a\" or b=\"c\"}[$__range])', run("format", self.path).out)

    def test_a_file_that_is_left(self):
        self.path.write_text(self.path.read_text() + "  - record: b\n    expr: (\n")
        ran = run("format", self.path)
        self.assertEqual((ran.status, ran.out, ran.err.count("warning")), (4, "", 0))


class Comments(Folder):
    def unused(self, text, *options):
        """The lines of the comments that silence nothing."""
        found = json.loads(run("lint", "--output", "json", *options, self.file(text)).out)
        return [it["line"] for it in found if it["code"] == "P003"]

    def test_comments(self):
        used = RULES + "  # promql: ignore P103\n  - alert: A\n    expr: up{job=~'a'} == 0\n"
        self.assertEqual(self.unused(used), [])
        self.assertEqual(self.unused("# promql: ignore-file P1\n" + used.replace("# promql: ignore P103", "#")), [])
        self.assertEqual(self.unused("# promql: ignore-file P601 why\n" + used), [1])
        self.assertEqual(self.unused(used.replace("P103", "P104, P303")), [4])
        self.assertEqual(self.unused(used.replace("P103", "P104, P103")), [])
        self.assertEqual(self.unused(used.replace("P103", "P9")), [4])
        self.assertEqual(self.unused(used + "# promql: ignore\n"), [7])
        self.assertEqual(self.unused(used.replace("P103", "")), [])

    def test_blocks(self):
        text = RULES + "  - alert: A\n    expr: |\n      # promql: ignore P103\n      up{job=~'a'} == 0 # promql: ignore P301\n"
        self.assertEqual(self.unused(text), [7])
        self.assertEqual(self.unused(text.replace("P103", "P104")), [6, 7])

    def test_other_codes(self):
        """A comment is not found where its codes are not looked for, nor where a query is rejected, or not looked at."""
        text = RULES + "  - alert: A\n    expr: up == 0 # promql: ignore P105\n"
        self.assertEqual(self.unused(text), [])
        self.assertEqual(self.unused(text, "--select", "P1,P003"), [5])
        self.assertEqual(self.unused(text.replace("P105", "P303"), "--select", "P1"), [])
        self.assertEqual(self.unused(text.replace("P105", "P303"), "--ignore", "P003"), [])
        self.assertEqual(self.unused(text.replace("P105", "P303").replace("== 0", "==")), [])
        self.assertEqual(self.unused(text.replace("P105", "P303").replace("up == 0", "'{a=\"b\"} |= \"c\"'")), [])

    def test_other_files(self):
        text = json.dumps({"panels": [{"targets": [{"expr": "up # promql: ignore P601\n"}, {"expr": "(up) # promql: ignore P601"}]}]})
        path = self.folder / "a.json"
        path.write_text(text)
        ran = run("lint", path)
        self.assertEqual((ran.status, ran.out.count("P003")), (1, 1))
        self.assertIn(f"{path}:1:39: warning P003: the comment silences nothing", ran.out)
        self.assertIn("<query 1>:1:4: warning P003", run("lint", "--query", "up # promql: ignore P1").out)
        self.assertEqual(run("lint", "--query", "(up) # promql: ignore").status, 0)


if __name__ == "__main__":
    unittest.main()
