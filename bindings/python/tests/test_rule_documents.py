"""Tests of what a YAML file may have beside plain rules, and of folders."""

import os
import unittest

from command_line import run
from rule_verdicts import AFTER_ALERT, RULES
from syntax_errors import NO_OPERAND
from test_rule_files import NO_QUERY, Folder

OBJECT = """\
apiVersion: monitoring.coreos.com/v1
kind: PrometheusRule
metadata:
  name: shop
  labels: {role: alert-rules}
spec:
  groups:
    - name: shop
      rules:
        - alert: ShopDown
          expr: up{job='shop'}==0
          for: 5m
"""
SERVICE = "apiVersion: v1\nkind: Service\nmetadata: {name: shop}\nspec: {ports: [{port: 80}]}\n"
TESTS = """\
rule_files: [shop.yml]
evaluation_interval: 1m
tests:
  - interval: 1m
    input_series:
      - {series: 'up{job="shop"}', values: 0 0 0}
    alert_rule_test:
      - {eval_time: 2m, alertname: ShopDown, exp_alerts: []}
    promql_expr_test:
      - expr: sum(up)by(job)
        eval_time: 2m
        exp_samples: [{labels: '{job="shop"}', value: 0}]
      - expr: |
          up==0
"""
# Queries of Loki.
LOGQL = (
    '{job="shop"} |= "error"',
    '{job="shop"} |~ `a}b`',
    'sum(rate({job="shop"} |= "error" [5m])) by (pod) > 10',
    'sum by (pod) (count_over_time({job="shop"} | json | status >= 500 [5m]))',
    'rate({a="}"}| logfmt [1m])',
    '{job="shop"} != "error"',
    '{job="shop"} !~ "error"',
    'sum_over_time({a="b"}|unwrap c [1m])',
)
# Queries that are not, right ones and wrong ones.
PROMQL = (
    'foo{a="} |= `b`"}',
    'foo{a!="b"} != 5',
    "foo{} | bar",
    "foo{} |= bar",
    "foo | json",
    'foo  # not {a="b"} |= "c"',
    '{a="b"} !~ c',
    '"} | json"',
    'a != "b"',
)


def rule(query):
    return RULES + "  - alert: B\n    expr: '" + query.replace("'", "''") + "'\n"


class Objects(Folder):
    def test_object(self):
        path = self.file(OBJECT)
        self.assertEqual(run("check", path), (0, f"{path}: 1 rule, no errors\n", ""))
        self.assertEqual(run("format", path), (0, OBJECT.replace("up{job='shop'}==0", 'up{job="shop"} == 0'), ""))

    def test_faults(self):
        path = self.file(OBJECT.replace("==0", "==").replace("5m", "5"))
        ran = run("check", path)
        self.assertEqual((ran.status, ran.out), (4, f"{path}: 1 rule, 2 errors\n"))
        self.assertIn(f"{path}:11:33: {NO_OPERAND}\n", ran.err)
        self.assertIn(f"{path}:12:16: `for` is not a duration\n", ran.err)

    def test_several_documents(self):
        """Other objects are left out; what is neither is an error, as it is alone."""
        path = self.file(f"{SERVICE}---\n{OBJECT}---\n{AFTER_ALERT}---\n")
        self.assertEqual(run("check", path), (0, f"{path}: 2 rules, no errors\n", ""))
        note = f"{path}:1:1: skipped: no rules: a `Service` of Kubernetes\n"
        self.assertEqual(run("check", "-v", path).err, note)
        self.assertEqual(run("format", "--check", "--verbose", path), (19, f"{path}\n", note))
        alone = self.file(SERVICE)
        self.assertEqual(run("check", alone)[:2], (1, f"{alone}: no rules, 1 error\n"))
        self.assertEqual(run("format", "--write", alone).status, 2)
        wrong = self.file(f"{OBJECT}---\na: b\n")
        self.assertIn(f"{wrong}:14:1: this is no rule file: it has no `groups`\n", run("check", wrong).err)

    def test_list(self):
        items = "".join("- " + text.replace("\n", "\n  ").rstrip(" ") for text in (OBJECT, SERVICE, OBJECT))
        path = self.file(f"apiVersion: v1\nkind: List\nitems:\n{items}")
        self.assertEqual(run("check", path), (0, f"{path}: 2 rules, no errors\n", ""))
        self.assertEqual(run("format", path).out.count('up{job="shop"} == 0'), 2)
        many = "a: &a {kind: List, items: [" + "*a, " * 5000 + "]}\n"
        self.assertEqual(run("check", self.file(many)).status, 1)

    def test_without_groups(self):
        for spec in ("spec: {}", "spec:", "spec: {groups: }"):
            path = self.file(f"apiVersion: monitoring.coreos.com/v1\nkind: PrometheusRule\n{spec}\n")
            self.assertEqual(run("check", path), (66, f"{path}: no rules, no errors\n", NO_QUERY), spec)


class Tests(Folder):
    def test_queries(self):
        path = self.file(TESTS)
        self.assertEqual(run("check", path), (0, f"{path}: 2 queries, no errors\n", ""))
        wanted = TESTS.replace("sum(up)by(job)", "sum by (job) (up)").replace("up==0", "up == 0")
        self.assertEqual(run("format", path), (0, wanted, ""))

    def test_faults(self):
        path = self.file(TESTS.replace("sum(up)by", "sum(up by").replace("expr: |", "query: |"))
        ran = run("check", path)
        self.assertEqual((ran.status, ran.out), (4, f"{path}: 1 query, 2 errors\n"))
        self.assertIn(f"{path}:10:22: unclosed left parenthesis\n", ran.err)
        self.assertIn(f"{path}:13:9: a test of a query without `expr`\n", ran.err)

    def test_other_tests(self):
        for text in ("tests: 5\n", "tests: []\n", "tests: [a]\n", "tests: [{name: a}]\n"):
            self.assertIn("this is no rule file", run("check", self.file(text)).err)

    def test_with_rules(self):
        path = self.file(f"{AFTER_ALERT}---\n{TESTS}")
        self.assertEqual(run("check", path).out, f"{path}: 1 rule, 2 queries, no errors\n")


class Loki(Folder):
    def test_logql(self):
        """One query tells of what the file is: none is checked, none is formatted."""
        for query in LOGQL:
            path = self.file(rule(query) + "  - alert: C\n    expr: up==\n    for: x\n")
            ran = run("check", path)
            self.assertEqual((ran.status, ran.out), (0, f"{path}: 2 rules, 2 skipped, no errors\n"), query)
            self.assertIn(f"{path}:5:12: skipped: a rule file of Loki, whose queries are LogQL\n", ran.err)
            ran = run("format", path)
            self.assertEqual((ran.status, ran.out), (0, path.read_text()))
            self.assertIn("warning: left as it is: a rule file of Loki", ran.err)
            self.assertEqual(run("format", "--enforce", 'a="b"', path).status, 2)

    def test_promql(self):
        for query in PROMQL:
            self.assertNotIn("Loki", run("check", self.file(rule(query))).err, query)

    def test_object(self):
        text = OBJECT.replace("monitoring.coreos.com/v1", "loki.grafana.com/v1").replace("PrometheusRule", "AlertingRule")
        path = self.file(text)
        self.assertEqual(run("check", path)[:2], (0, f"{path}: 1 rule, 1 skipped, no errors\n"))
        self.assertEqual(run("format", path)[:2], (0, text))

    def test_documents(self):
        """Another document of the file is of its own."""
        path = self.file(f"{rule(LOGQL[0])}---\n{AFTER_ALERT}    for: x\n")
        self.assertEqual(run("check", path)[:2], (1, f"{path}: 2 rules, 1 skipped, 1 error\n"))

    def test_thanos(self):
        path = self.file(AFTER_ALERT.replace("  rules", "  partial_response_strategy: warn\n  rules"))
        self.assertEqual(run("check", path), (0, f"{path}: 1 rule, no errors\n", ""))


class Folders(Folder):
    FILES = {
        "a.yml": AFTER_ALERT,
        "deep/er/b.yaml": OBJECT,
        "deep/c.yml": TESTS,
        "deep/service.yaml": SERVICE,
        "empty.yml": "",
        "groups.yml": "groups: [wheel, sudo]\n",
        "helm.yaml": "a: {{ .Values.a }}\n{{ if b }}\n",
        "latin.yml": b"a: \xe9\n",
        "other.txt": "a b",
        "board.json": '{"panels": [{"targets": [{"expr": "up"}]}]}',
        "package.json": "{}",
        ".hidden.yml": "a b: c:",
        ".git/config.yml": "groups: [{rules: [{expr: up ==}]}]",
    }

    FOUND = ("a.yml: 1 rule", "board.json: 1 query", "deep/c.yml: 2 queries", "deep/er/b.yaml: 1 rule")

    def setUp(self):
        super().setUp()
        for name, text in self.FILES.items():
            path = self.folder / name
            path.parent.mkdir(parents=True, exist_ok=True)
            path.write_bytes(text if isinstance(text, bytes) else text.encode())

    def test_check(self):
        said = [f"{self.folder}/{name}" for name in self.FOUND]
        (self.folder / "latin.yml").unlink()
        for jobs in (1, 3):
            ran = run("check", "--jobs", jobs, self.folder)
            self.assertEqual(ran, (0, "".join(f"{line}, no errors\n" for line in said), ""))
        others = {it: "no rule file" for it in ("deep/service.yaml", "empty.yml", "groups.yml")}
        others["helm.yaml"] = "it is not YAML, and no line of it begins with `groups:`"
        others["package.json"] = "no rule file"
        said = "".join(f"{self.folder}/{name}: skipped: {why}\n" for name, why in others.items())
        self.assertEqual(run("check", "-v", self.folder).err, said)

    def test_format(self):
        ran = run("format", "--check", self.folder)
        self.assertEqual(ran.out, f"{self.folder}/deep/c.yml\n{self.folder}/deep/er/b.yaml\n")
        self.assertEqual(run("format", "--write", self.folder / "deep"), (0, "", ""))
        self.assertEqual(run("format", "--check", self.folder / "deep"), (0, "", ""))

    def test_not_read(self):
        """A file that cannot be read may be a rule file: that it is not UTF-8 is said, and so is what is wrong with rules."""
        ran = run("check", self.folder)
        self.assertEqual((ran.status, ran.err), (3, f"{self.folder}/latin.yml:1:4: not UTF-8 at byte 3\na: \n   ^\n"))
        (self.folder / "latin.yml").write_text("groups:\n- name: {{ a }}\n  b\n")
        self.assertIn(f"{self.folder}/latin.yml:", run("check", self.folder).err)
        self.assertEqual(run("check", self.folder / "helm.yaml").status, 2)

    def test_dashboards(self):
        (self.folder / "board.json").write_text('{"panels": [{"targets": [{"expr": "up ="}]}]}')
        ran = run("check", "--dashboard", self.folder)
        self.assertEqual((ran.status, ran.out), (4, f"{self.folder}/board.json: 1 query, 1 error\n"))

    def test_nothing(self):
        empty = self.folder / "none"
        empty.mkdir()
        said = f"{empty}: no file in it ends in .yml, .yaml, .rules, .rule or .json\n"
        self.assertEqual(run("check", empty), (2, "", said))
        self.assertEqual(run("format", empty, self.folder / "a.yml"), (2, AFTER_ALERT, said))

    def test_what_a_terminal_obeys(self):
        """The names of files are those of others, too: they are shown with escapes."""
        folder = self.folder / "names"
        folder.mkdir()
        for number, text in enumerate(
            (AFTER_ALERT.replace("expr: up", "expr: up+1"), SERVICE, AFTER_ALERT + "a: [", "groups: [" * 700)
        ):
            (folder / f"{number}\x1b[2J\u202e.yml").write_text(text)
        (folder / "\x1b]0;x\x07").mkdir()
        for command in (("check", "-v"), ("format", "--check", "-v"), ("check", "--jobs", "2"), ("check", "--queries")):
            ran = run(*command, folder, folder / "\x1b]0;x\x07")
            self.assertEqual(ran.status, 2)
            for character in "\x1b\x07\u202e":
                self.assertNotIn(character, ran.out + ran.err)
            self.assertIn(r"0\x1b[2J\u{202e}.yml", ran.out)
            self.assertIn(r"2\x1b[2J\u{202e}.yml", ran.err)
            self.assertIn(r"\x1b]0;x\x07: no file in it ends in", ran.err)

    def test_links(self):
        """A link to a folder is not followed, nor is a file read that is no regular one."""
        (self.folder / "deep/loop").symlink_to(self.folder)
        os.mkfifo(self.folder / "deep/pipe.yml")
        self.assertEqual(run("check", self.folder / "deep").out.count("\n"), 2)


if __name__ == "__main__":
    unittest.main()
