"""Tests that no query passes unseen: each is checked wherever it is, or its file is named, and a run that found none says so."""

import json
import unittest

from command_line import run
from rule_verdicts import AFTER_ALERT
from test_rule_documents import OBJECT, SERVICE
from test_rule_files import NO_QUERY, Folder

BROKEN = "sum(up"
UNCLOSED = "unclosed left parenthesis"
RULE = "- alert: B\n  expr: sum(up\n"
GROUPS = "groups:\n- name: a\n  rules:\n  - alert: B\n    expr: sum(up\n"
LOKI = {"kind": "DataQuery", "group": "loki", "spec": {"expr": '{a="b"} |= "c"'}}


def indented(text, by):
    return "".join(" " * by + line for line in text.splitlines(keepends=True))


def board_of_second_schema(query):
    """A dashboard with a query in a panel, a variable and an annotation."""
    asked = {"kind": "DataQuery", "group": "prometheus", "version": "v0", "spec": {"expr": query}}
    variable = {"kind": "prometheus", "spec": {"query": f"label_values({query}, job)"}}
    queries = [{"kind": "PanelQuery", "spec": {"refId": "A", "query": it}} for it in (asked, LOKI)]
    spec = {
        "elements": {"p": {"kind": "Panel", "spec": {"data": {"kind": "QueryGroup", "spec": {"queries": queries}}}}},
        "variables": [
            {"kind": "QueryVariable", "spec": {"name": "job", "query": variable}},
            {"kind": "CustomVariable", "spec": {"name": "c", "query": "a b"}},
        ],
        "annotations": [{"kind": "AnnotationQuery", "spec": {"query": {"kind": "prometheus", "spec": {"expr": query}}}}],
    }
    return json.dumps({"apiVersion": "dashboard.grafana.app/v2beta1", "kind": "Dashboard", "spec": spec}, indent=1)


def alert_rules(query):
    """Alert rules of Grafana, as they are provisioned."""
    data = [
        {"refId": "A", "datasourceUid": "P1", "model": {"expr": query}},
        {"refId": "B", "datasourceUid": "L1", "model": {"expr": '{a="b"} |= "c"', "datasource": {"type": "loki"}}},
        {"refId": "C", "datasourceUid": "__expr__", "model": {"type": "threshold", "expression": "A"}},
    ]
    rule = {"uid": "u", "title": "t", "condition": "C", "data": data}
    return {"apiVersion": 1, "groups": [{"orgId": 1, "name": "g", "folder": "f", "interval": "1m", "rules": [rule]}]}


class Unseen(Folder):
    def put(self, name, text):
        path = self.folder / name
        path.write_text(text, encoding="utf-8")
        return path

    def assert_found(self, name, text, count=1):
        """A broken query is found, in the file and in its folder, as often as it is there; a right one has no fault."""
        path = self.put(name, text)
        for given in (path, self.folder):
            ran = run("check", given)
            self.assertEqual((ran.status, ran.err.count(UNCLOSED)), (4, count), (text, ran))
        self.put(name, text.replace(BROKEN, "sum(up)"))
        for given in (path, self.folder):
            self.assertEqual(run("check", "--strict", given).status, 0, run("check", given))
        path.unlink()


class Objects(Unseen):
    def test_objects(self):
        for kind, version in (
            ("VMRule", "operator.victoriametrics.com/v1beta1"),
            ("Rules", "monitoring.googleapis.com/v1"),
            ("ClusterRules", "monitoring.googleapis.com/v1"),
            ("Unknown", "example.com/v1"),
        ):
            self.assert_found("a.yaml", f"apiVersion: {version}\nkind: {kind}\nspec:\n{indented(GROUPS, 2)}")

    def test_fields_of_victoria_metrics(self):
        text = "apiVersion: operator.victoriametrics.com/v1beta1\nkind: VMRule\nspec:\n" + indented(GROUPS, 2).replace(BROKEN, "up")
        text = text.replace("  rules:", "  concurrency: 2\n    rules:")
        self.assertEqual(run("check", self.put("a.yaml", text)).status, 0)
        self.assertIn("unknown field", run("check", self.put("a.yaml", text.replace("VMRule", "PrometheusRule"))).err)

    def test_values_of_charts(self):
        self.assert_found("values.yaml", f"rules:\n  shop:\n{indented(GROUPS, 4)}")
        self.assert_found("values.yaml", f"prometheusRule:\n  enabled: true\n  rules:\n{indented(RULE, 2)}")
        self.assert_found("values.yaml", f"additional:\n- name: shop\n{indented(GROUPS, 2)}")

    def test_fields_of_mimir(self):
        fields = "evaluation_delay: 1m\n  source_tenants: [a]\n  align_evaluation_time_on_interval: true\n  remote_write: [{url: x}]\n"
        self.assert_found("a.yml", "namespace: shop\n" + GROUPS.replace("  rules:", f"  {fields}  rules:"))
        path = self.file(AFTER_ALERT.replace("  rules", "  evaluation_delay: x\n  rules"))
        self.assertIn("`evaluation_delay` is not a duration", run("check", path).err)

    def test_config_map(self):
        """Rules and dashboards that are texts: their places are those of the file, and nothing of them is written."""
        board = '{"panels": [{"targets": [{"expr": "sum(up"}]}]}\n'
        rules = GROUPS.replace("alert: B", "alert: B\n    for: 5")
        head = "apiVersion: v1\nkind: ConfigMap\ndata:\n"
        text = f"{head}  a.yml: |\n{indented(rules, 4)}  b.json: |\n{indented(board, 4)}  c.txt: groups\n"
        path = self.put("a.yaml", text)
        ran = run("check", path)
        self.assertEqual((ran.status, ran.out), (4, f"{path}: 1 rule, 1 query, 3 errors\n"))
        self.assertIn(f"{path}:10:21: {UNCLOSED}\n        expr: sum(up\n{' ' * 20}^", ran.err)
        self.assertIn(f"{path}:9:14: `for` is not a duration\n", ran.err)
        self.assertIn(f"{path}:12:46: {UNCLOSED}\n", ran.err)
        fine = text.replace(BROKEN, "sum(up)>0").replace("for: 5", "for: 5m")
        ran = run("format", self.put("a.yaml", fine))
        self.assertEqual((ran.status, ran.out), (0, fine))
        self.assertEqual(ran.err.count("left as it is: it is in a text of this file"), 2)
        ran = run("lint", self.put("a.yaml", fine.replace("sum(up)>0", "irate(a_total[5m]) > 1")))
        self.assertIn(f"{path}:10:15: warning P206", ran.out)
        ran = run("check", self.put("a.yaml", f'{head}  a.yml: "groups: [a"\n  b: c\n'))
        self.assertEqual(ran.status, 1)
        ran = run("check", self.put("a.yaml", head + "  a.yml: |\n    groups: [{rules: [{expr: up}]}\n"))
        self.assertIn(f"{path}:5:35: in the text `a.yml`: not YAML: ", ran.err)

    def test_loose_queries(self):
        """An `expr` in no place that is known is named."""
        path = self.put("values.yaml", f"alerts:\n  high: {{expr: up}}\nmore:\n{indented(GROUPS, 2)}".replace(BROKEN, "up"))
        said = f"{path}:2:16: warning: not looked at: an `expr` that is in no rule of a group\n"
        self.assertEqual(run("check", path), (0, f"{path}: 1 rule, no errors\n", said))
        for command in ("check", "lint", "format"):
            self.assertEqual(run(command, "--strict", path)[::2], (1, said), command)
        path.write_text("alerts:\n" + "".join(f"  a{number}: {{expr: up}}\n" for number in range(200)))
        ran = run("check", path)
        self.assertEqual(ran.err.count("not looked at"), 100)
        self.assertIn("101:15: warning: not looked at: an `expr` that is in no rule of a group; nor are 100 more\n", ran.err)
        path.write_text("alerts:\n  high: {expr: up}\n")
        ran = run("check", self.folder)
        said = f"{path}: warning: skipped: it has an `expr`, and no rules or panels that are known\n"
        self.assertEqual(ran, (66, "", said + NO_QUERY))
        self.assertEqual(run("check", "--strict", self.folder).status, 1)


class Folders(Unseen):
    def test_names(self):
        for name in ("a.rules", "a.rule", "a.yml", "a.yaml"):
            self.assert_found(name, GROUPS)
        path = self.put("a.rules", "x\n")
        self.assertEqual(run("check", self.folder).err, f"{path}: warning: skipped: no rule file\n{NO_QUERY}")

    def test_templates(self):
        self.put("a.yml", AFTER_ALERT)
        templates = [self.put(name, "{{ a }}") for name in ("b.rules.j2", "b.yml.tmpl")]
        said = "".join(f"{path}: warning: skipped: a template, by its name: check what is made of it\n" for path in templates)
        self.assertEqual(run("check", self.folder)[::2], (0, said))
        helm = self.put("c.yaml", "{{ if a }}\n- expr: up\n{{ end }}\n")
        said += f"{helm}: warning: skipped: it is not YAML, and no line of it begins with `groups:`\n"
        self.assertEqual(run("check", self.folder)[::2], (0, said))
        self.assertEqual(run("check", "--strict", self.folder)[::2], (1, said))

    def test_misspelled_groups(self):
        for key in ("group", "Groups", "grops"):
            path = self.put("a.yml", GROUPS.replace("groups", key).replace(BROKEN, "up"))
            for given in (path, self.folder):
                ran = run("check", given)
                self.assertEqual((ran.status, ran.out), (1, f"{path}: no rules, 1 error\n"))
                self.assertIn(f"{path}:1:1: this is no rule file: it has no `groups`, but `{key}`\n", ran.err)

    def test_misspelled_parts(self):
        """What promtool rejects for a key is an error in a folder, too."""
        text = GROUPS.replace(BROKEN, "up")
        self.put("fine.yml", AFTER_ALERT)
        path = self.put("a.yml", text.replace("rules:", "rule:"))
        ran = run("check", self.folder)
        self.assertEqual((ran.status, "unknown field `rule`" in ran.err), (1, True))
        head = "apiVersion: monitoring.coreos.com/v1\nkind: PrometheusRule\nspec:\n"
        path.write_text(head + indented(text.replace("groups", "group"), 2))
        ran = run("check", self.folder)
        self.assertEqual((ran.status, "4:3: a `PrometheusRule` without `groups`, but with `group`\n" in ran.err), (1, True))
        path.write_text(head + indented("rules:\n" + RULE, 2))
        self.assertIn(UNCLOSED, run("check", self.folder).err)
        path.write_text(head + "  {}\n")
        self.assertEqual(run("check", self.folder).status, 0)

    def test_broken_json(self):
        path = self.put("a.json", '{"panels": [{"expr": "up"}')
        self.assertEqual(run("check", self.folder).status, 2)
        path.write_text("{ // settings\n}")
        self.assertEqual(run("check", self.folder)[::2], (66, NO_QUERY))

    def test_no_query(self):
        """What a run without a query ends with, unless something is wrong in it."""
        self.put("a.yml", SERVICE)
        for command in (("check",), ("lint",), ("format", "--check")):
            self.assertEqual(run(*command, self.folder), (66, "", NO_QUERY))
        self.assertEqual(run("format", "--write", self.folder).status, 0)
        self.put("b.yml", OBJECT)
        self.assertEqual(run("check", self.folder).status, 0)


class Grafana(Unseen):
    def test_second_schema(self):
        self.assert_found("a.json", board_of_second_schema(BROKEN), 3)
        path = self.put("a.json", board_of_second_schema("up"))
        self.assertEqual(run("check", path).out, f"{path}: 4 queries, 1 skipped, no errors\n")

    def test_alert_rules(self):
        rules = alert_rules(BROKEN)
        self.assert_found("a.json", json.dumps(rules))
        self.assert_found("a.yml", json.dumps(rules))
        path = self.put("a.yml", json.dumps(alert_rules("up==0")))
        self.assertEqual(run("check", path).out, f"{path}: 1 rule, 1 skipped, no errors\n")
        self.assertEqual(run("format", path).out, json.dumps(alert_rules("up == 0")))

    def test_rules_in_json(self):
        self.assert_found("a.json", json.dumps({"groups": [{"name": "a", "rules": [{"alert": "B", "expr": BROKEN}]}]}))

    def test_other_places(self):
        self.assertIn("warning: not looked at: an `expr`", run("check", self.put("a.json", '{"options": {"expr": "up"}}')).err)

    def variable(self, query, source='{"type": "prometheus"}', kind="query"):
        item = f'{{"type": "{kind}", "datasource": {source}, "query": {json.dumps(query)}}}'
        return self.put("a.json", f'{{"templating": {{"list": [\n{item}]}}}}')

    def test_variables(self):
        for query, column in (
            ('label_values(up{a="b", job)', 23),
            ("label_values(up, job", 18),
            ("query_result(sum(up)", 14),
            ('label_values({a="$a"} b, ${b})', 24),
            ("sum(up", 7),
            ({"query": "label_values(sum(, job)", "refId": "A"}, 0),
        ):
            ran = run("check", self.variable(query))
            self.assertEqual(ran.status, 4, (query, ran))
        for query in ("label_values(job)", "label_names()", "metrics(a(b)"):
            self.assertEqual(run("check", self.variable(query)).status, 66, query)
        for query in ("label_values(up, job)", 'label_values(up{a=~"$a"}, $b)', "query_result(topk(5, up))", "up"):
            self.assertEqual(run("check", "--strict", self.variable(query)).status, 0, query)
        for kind in ("custom", "interval", "datasource"):
            self.assertEqual(run("check", self.variable("a b c", kind=kind)).status, 66)

    def test_sources_of_variables(self):
        for source, strict in (('{"type": "mysql"}', 0), ("null", 1), ('"shop"', 1)):
            path = self.variable("SELECT 1", source)
            self.assertEqual((run("check", path).status, run("check", "--strict", path).status), (0, strict), source)
        self.assertEqual(run("check", self.variable("label_values(up{, job)", "null")).status, 4)

    def test_variables_are_laid_out(self):
        """What a variable asks for stays around its query, and so do other variables in it."""
        path = self.variable("label_values(up{ a='$a' }, job)")
        self.assertIn(json.dumps("label_values(up{a='$a'}, job)"), run("format", path).out)
        self.assertEqual(run("format", "--check", path).status, 19)
        path = self.variable("query_result(up{a=~'b'})")
        self.assertEqual(run("lint", "--fix", path).status, 0)
        self.assertIn(json.dumps("query_result(up{a='b'})"), path.read_text())
        ran = run("format", "--enforce", "a='b'", self.variable("query_result(up)"))
        self.assertIn(json.dumps('query_result(up{a="b"})'), ran.out)

    def test_annotations(self):
        for place in ('"expr": "sum(up"', '"target": {"expr": "sum(up"}'):
            self.assert_found("a.json", f'{{"annotations": {{"list": [{{{place}}}]}}}}')


if __name__ == "__main__":
    unittest.main()
