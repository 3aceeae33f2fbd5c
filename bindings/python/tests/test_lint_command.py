"""Tests of `promql-rules lint`."""

import json
import random
import re
import shutil
import subprocess
import sys
import time
import unittest
from pathlib import Path

from command_line import run
from promql import lint
from test_dashboards import Folder
from written import STYLES, write

try:
    import ruamel.yaml
except ImportError:
    ruamel = None

HERE = Path(__file__).resolve().parent
PAGE = HERE.parents[2] / "docs/guide/lint.md"
# Rules with mistakes: above each the code of what is to find it, or `none`.
MISTAKES = HERE / "files/mistakes/rules.yml"
MISTAKE = re.compile(r"^      # (P\d{3}|none): .+\n      - ", re.M)
HAS_YAML = unittest.skipUnless(ruamel, "there is no ruamel.yaml here")
# Where a package of Debian, ceph-prometheus-alerts, has its rules, and ceph-grafana-dashboards its dashboards.
ALERTS = Path("/etc/prometheus/ceph/ceph_default_alerts.yml")
BOARDS = Path("/etc/grafana/dashboards/ceph-dashboard")
RULES = """\
groups:
  - name: shop  # comments stay
    interval: 5m
    rules:
      - alert: Down
        expr: 'up{job=~''shop''} == 0'   # why
        annotations: {summary: "{{ $labels.zone }}"}
      - record: job:errors:rate1m
        expr: |
          sum by (job) (
            rate(errors_total{job=~"^shop-.+$"}[1m])  # no anchors
          )
"""
FIXED = RULES.replace("=~''shop''", "=''shop''").replace('"^shop-.+$"', '"shop-.+"')
# Queries with fixes.
FIXABLE = (
    'sum(rate(errors_total{job=~"^shop$",zone=~".*"}[5m])) by (job) > (1)',
    "up{job=~'shop'}",
    "((a + b)) * (c)",
    'x{} + y{a="b", a="b"}',
    'count({job=~"a\\\\.b"}) > 1',
    'sum(up{é=~"🦀"}) > 0 # ((why))',
    'sum(\n  # why\n  (up{job=~"shop"})\n) == 0',
)


class Queries(Folder):
    def test_queries(self):
        ran = run("lint", "--query", 'up{job=~"shop"} == 0', "--query", "up")
        self.assertEqual((ran.status, ran.err), (1, ""))
        self.assertEqual(
            ran.out.splitlines(),
            [
                '<query 1>:1:4: warning P103: the pattern matches one text alone: write `job="shop"` (--fix)',
                'up{job=~"shop"} == 0',
                "   ^~~~~~~~~~~",
                "<query 1>: 1 query, 1 finding",
                "<query 2>: 1 query, no findings",
            ],
        )

    def test_standard_input(self):
        self.assertEqual(run("lint", stdin=b"up\n"), (0, "<stdin>: 1 query, no findings\n", ""))
        self.assertEqual(run("lint", "--fix", stdin=b"(up{})\n"), (0, "up\n", ""))
        self.assertEqual(run("lint", "--fix", stdin=b"up"), (0, "up\n", ""))
        ran = run("lint", "--fix", stdin=b"(up{a='b',a='c'})")
        self.assertEqual((ran.status, ran.out), (1, "up{a='b',a='c'}\n"))
        self.assertIn("<stdin>:1:10: error P108: ", ran.err)
        ran = run("lint", stdin=b"up\xff")
        self.assertEqual((ran.status, ran.out, ran.err), (3, "", "<stdin>:1:3: not UTF-8 at byte 2\nup\n  ^\n"))

    def test_rejected(self):
        ran = run("lint", stdin=b"sum(\n  rate(foo))")
        self.assertEqual(ran.status, 1)
        self.assertIn("<stdin>:2:8: error P001: expected type matrix in call to function 'rate', got vector\n  rate(foo))\n", ran.out)

    def test_deep(self):
        query = "sum by (b) (" * 500 + "a" + ")" * 500
        ran = run("lint", f"--query={query}", "--query", "(up)")
        self.assertEqual((ran.status, "P601" in ran.out), (2, True))
        self.assertIn("<query 1>:1:1: not looked at: nested too deeply for the linter\n", ran.err)
        ran = run("lint", "--fix", f"--query={query}")
        self.assertEqual((ran.status, ran.out), (2, query + "\n"))

    def test_slow_patterns(self):
        """What would take long by a matcher that tries one way after another."""
        pattern = ".*x" * 40 + "y"
        query = 'up{a="' + "x" * 300 + '",' + ",".join(f'b{number}="{"x" * 100}",b{number}=~"{pattern}"' for number in range(20)) + "}"
        begin = time.monotonic()
        self.assertEqual(run("lint", "--query", query).out.count("P108"), 20)
        parentheses = "(" * 200 + "up" + ")" * 200
        self.assertEqual(run("lint", "--fix", "--query", parentheses), (0, "up\n", ""))
        self.assertLess(time.monotonic() - begin, 30)

    def test_codes(self):
        query = "sum((rate(x{a=~'b'}[5m])))"
        self.assertEqual(run("lint", "--query", query, "--ignore", "P1,P601").status, 0)
        self.assertIn("P202", run("lint", "--query", query, "--select", "P2").out)
        self.assertEqual(run("lint", "--query", query, "--select", "P3", "--select", "P4").status, 0)
        self.assertEqual(run("lint", "--query", query, "--select", "all", "--ignore", "P").status, 0)
        for words in ("P99", "x", ","):
            ran = run("lint", "--query", query, "--select", words)
            self.assertEqual(ran.status, 64)
            self.assertIn("no rule has a code that begins with", ran.err)
        listed = run("lint", "--rules").out.splitlines()
        self.assertEqual([line[:4] for line in listed], sorted(lint.RULES))

    def test_json(self):
        ran = run("lint", "--output", "json", "--query", 'up{\n a=~"b"}', "--query", "sum(", "--query", "up")
        first, second = json.loads(ran.out)
        self.assertEqual((ran.status, ran.err), (1, ""))
        place = {"line": 2, "column": 2, "endLine": 2, "endColumn": 8}
        self.assertEqual({key: first[key] for key in place}, place)
        self.assertEqual((first["file"], first["code"], first["name"]), ("<query 1>", "P103", "pattern-of-one-text"))
        self.assertEqual(first["severity"], "warning")
        edit = {"line": 2, "column": 3, "endLine": 2, "endColumn": 5, "text": "="}
        self.assertEqual(first["fix"], {"query": 'up{\n a="b"}', "edits": [edit]})
        self.assertEqual((second["file"], second["code"], second["fix"]), ("<query 2>", "P001", None))
        self.assertEqual(json.loads(run("lint", "--output", "json", "--query", "up").out), [])
        for words in (("--query", "up"), (), ("-",)):
            self.assertEqual(run("lint", "--fix", "--output", "json", *words).status, 64)

    def test_sarif(self):
        ran = run("lint", "--output", "sarif", "--query", "up{a=~'b'} or (up)")
        (made,) = json.loads(ran.out)["runs"]
        self.assertEqual(ran.status, 1)
        self.assertEqual(made["columnKind"], "unicodeCodePoints")
        rules = made["tool"]["driver"]["rules"]
        self.assertEqual([it["id"] for it in rules], ["P103", "P601"])
        self.assertEqual([it["defaultConfiguration"]["level"] for it in rules], ["warning", "note"])
        results = made["results"]
        self.assertEqual([rules[it["ruleIndex"]]["id"] for it in results], [it["ruleId"] for it in results])
        region = results[0]["locations"][0]["physicalLocation"]["region"]
        self.assertEqual(region, {"startLine": 1, "startColumn": 4, "endLine": 1, "endColumn": 10})
        (replacement,) = results[0]["fixes"][0]["artifactChanges"][0]["replacements"]
        self.assertEqual(replacement["insertedContent"], {"text": "="})


class Boards(Folder):
    def test_board(self):
        path = self.board('"sum(up{job=~\\"shop\\"})"')
        ran = run("lint", path)
        self.assertEqual(ran.status, 1)
        self.assertIn(f"{path}:2:18: warning P103: ", ran.out)
        self.assertEqual(run("lint", "--fix", path), (0, f"{path}: 1 query, 1 query fixed, no findings\n", ""))
        self.assertIn('"sum(up{job=\\"shop\\"})"', path.read_text())

    def test_variables(self):
        for query in ("up{job=~'$job'}", "rate($x[$__interval])", "up == $y", "up{a='$x',a='$y'}", "quantile($q, up)", "[[f]](up)"):
            path = self.board(json.dumps(query))
            self.assertEqual(run("lint", path).status, 0, query)
        path = self.board(json.dumps("up{job=~'$job',zone=~'a'}"))
        self.assertIn(f"{path}:2:26: warning P103: the pattern matches one text alone: write `zone=\"a\"` (--fix)\n", run("lint", path).out)
        self.assertEqual(run("lint", "--fix", path).status, 0)
        self.assertIn(json.dumps("up{job=~'$job',zone='a'}"), path.read_text())

    def test_fixes_beside_variables(self):
        for query, fixed in (
            (
                'sum((rate(${m}_total{a=~"$x",b=~"^c.+$"}[$__interval]))) > ($y)',
                'sum(rate(${m}_total{a=~"$x",b=~"c.+"}[$__interval])) > ($y)',
            ),
            ("[[f]]({}) + $z{}", None),
            ("$x{a=~'b'} + up{c=~'$y', d='e', d='e'}", "$x{a='b'} + up{c=~'$y', d='e'}"),
            ('up{a=~"b\\\\.c"} / on ($l) ($x)', 'up{a="b.c"} / on ($l) ($x)'),
            ("($x + 1) + (($y)) + ($f(up)) + (up{a='$x'})", "($x + 1) + ($y) + ($f(up)) + up{a='$x'}"),
        ):
            path = self.board(json.dumps(query))
            before = path.read_text()
            ran = run("lint", "--fix", path)
            self.assertLess(ran.status, 2, ran.err)
            self.assertEqual(path.read_text(), before.replace(json.dumps(query), json.dumps(fixed or query)), ran.out)

    @unittest.skipUnless(BOARDS.is_dir(), "ceph-grafana-dashboards is not installed")
    def test_fixes_of_a_package(self):
        shutil.copytree(BOARDS, self.folder / "boards")
        before = json.loads(run("lint", "--dashboard", "--output", "json", self.folder).out)
        run("lint", "--dashboard", "--fix", self.folder)
        self.assertEqual(run("check", "--dashboard", self.folder).status, 0)
        after = json.loads(run("lint", "--dashboard", "--output", "json", self.folder).out)
        self.assertGreater(len(before), 40)
        self.assertLess(len(after), 5)

    def test_skipped(self):
        path = self.board('"{a=\\"b\\"} |= \\"c\\""', before='"datasource": {"type": "loki"}, ')
        self.assertEqual(run("lint", path), (0, f"{path}: 1 query, 1 skipped, no findings\n", ""))
        self.assertIn("skipped: its data source is of the type loki", run("lint", "-v", path).err)

    @unittest.skipUnless(BOARDS.is_dir(), "ceph-grafana-dashboards is not installed")
    def test_boards_of_a_package(self):
        ran = run("lint", "--dashboard", "--output", "json", BOARDS)
        found = json.loads(ran.out)
        self.assertEqual(ran.err, "")
        self.assertEqual({it["code"] for it in found}, {"P103", "P601", "P602"})
        # (those written as a pattern have no `.` and no `|`)
        values = [re.search(r'write `proxy="(frontend|backend)"`', it["message"]) for it in found if it["code"] == "P103"]
        self.assertTrue(values and all(values))


@HAS_YAML
class Files(Folder):
    def file(self, text, name="a.yml"):
        path = self.folder / name
        path.write_bytes(text.encode())
        return path

    def codes(self, path, *arguments):
        return [(it["code"], it["line"]) for it in json.loads(run("lint", "--output", "json", *arguments, path).out)]

    def test_file(self):
        path = self.file(RULES)
        ran = run("lint", path)
        self.assertEqual((ran.status, ran.err), (1, ""))
        self.assertEqual(self.codes(path), [("P103", 6), ("P104", 11), ("P207", 11)])
        self.assertIn(f"{path}:6:19: warning P103: ", ran.out)
        self.assertIn(f"{path}: 2 rules, 3 findings\n", ran.out)
        self.assertIn("the group is evaluated every 5m", ran.out)
        self.assertEqual(run("lint", "--jobs", "2", path, self.file(RULES, "b.yml")).status, 1)

    def test_fix(self):
        path = self.file(RULES)
        ran = run("lint", "--fix", path)
        self.assertEqual((ran.status, ran.err), (1, ""))
        self.assertIn(f"{path}: 2 rules, 2 queries fixed, 1 finding\n", ran.out)
        self.assertEqual(path.read_text(), FIXED)
        ran = run("lint", "--fix", "-", stdin=RULES.encode())
        self.assertEqual(ran.out, FIXED)
        self.assertEqual(run("lint", "--fix", "--select", "P3", path).status, 0)
        self.assertEqual(path.read_text(), FIXED)

    def test_windows(self):
        text = "\ufeff" + RULES.replace("\n", "\r\n")
        path = self.file(text)
        self.assertEqual(run("lint", "--fix", path).status, 1)
        self.assertEqual(path.read_bytes().decode(), "\ufeff" + FIXED.replace("\n", "\r\n"))
        silenced = text.replace("        annotations", "        # promql: ignore P1\r\n        annotations")
        self.assertEqual([code for code, _ in self.codes(self.file(silenced))], ["P104", "P207"])

    def test_objects(self):
        """Rules in an object of Kubernetes, and unit tests, whose queries are of no rule."""
        indented = RULES.replace("\n", "\n  ")
        path = self.file(f"apiVersion: monitoring.coreos.com/v1\nkind: PrometheusRule\nspec:\n  {indented}\n")
        self.assertEqual([code for code, _ in self.codes(path)], ["P103", "P104", "P207"])
        self.assertEqual(run("lint", "--fix", path).status, 1)
        self.assertIn(FIXED.replace("\n", "\n  ").rstrip(), path.read_text())
        path = self.file("tests:\n- promql_expr_test:\n  - {expr: (up), eval_time: 1m}\n")
        self.assertEqual(self.codes(path), [("P601", 3)])
        self.assertEqual(run("lint", "--fix", path), (0, f"{path}: 1 query, 1 query fixed, no findings\n", ""))

    def test_parentheses_on_lines_of_their_own(self):
        query = "        (\n          c\n        and\n          d\n        )\n"
        text = f"groups:\n- name: a\n  rules:\n  - record: b\n    expr: |\n{query}    labels: {{e: f}}\n"
        path = self.file(text)
        self.assertEqual(run("lint", "--fix", path).status, 0)
        self.assertEqual(path.read_text(), text.replace("(\n          c", "c").replace("\n        )\n", "\n"))
        path = self.file(text.replace("(\n", "(  # why\n", 1))
        self.assertEqual(run("lint", "--fix", path).status, 0)
        self.assertIn("# why", path.read_text())

    def test_contexts(self):
        path = self.file(RULES.replace("expr: 'up{job=~''shop''} == 0'", "expr: sum(up)"))
        self.assertEqual(self.codes(path, "--select", "P5"), [("P501", 6), ("P503", 6)])
        asked = "{{ if $labels.zone }}{{ $labels.zone }}{{ end }}"
        path = self.file(RULES.replace("{{ $labels.zone }}", asked).replace("== 0", "> bool 0"))
        self.assertEqual(self.codes(path, "--select", "P5"), [("P502", 6)])

    def test_mistakes(self):
        """Each mistake is found by its rule, and most of them by nothing else."""
        text = MISTAKES.read_text()
        wanted = {text.count("\n", 0, it.end()) + 1: it[1] for it in MISTAKE.finditer(text)}
        found = {}
        for code, line in self.codes(MISTAKES):
            found.setdefault(line, set()).add(code)
        self.assertEqual(set(found), {line for line, code in wanted.items() if code != "none"})
        for line, codes in found.items():
            self.assertIn(wanted[line], codes)
        self.assertGreater(len(found), 55)
        self.assertEqual([codes for codes in found.values() if len(codes) > 1], [{"P103", "P109", "P405", "P901"}])

    def rules(self, *rules, labels=""):
        """A file with one group of these rules."""
        return self.file(f"groups:\n- name: a\n{labels}  rules:\n" + "".join(f"  - {{{rule}}}\n" for rule in rules))

    def test_recorded_labels(self):
        """The labels of a recorded metric are those that its rule keeps, and gives."""
        alert = "alert: C, expr: 'max by (zone, team) (a:b:sum) > 1'"
        for labels, count in (("", 2), (", labels: {team: x}", 1), (", labels: {team: x, zone: y}", 0)):
            path = self.rules(f"record: 'a:b:sum', expr: sum(b){labels}", alert)
            self.assertEqual(self.codes(path), [("P401", 5)] * count, labels)
        path = self.rules("record: 'a:b:sum', expr: sum(b)", alert, labels="  labels: {team: x}\n")
        self.assertEqual(self.codes(path), [])
        path = self.rules("record: 'a:b:sum', expr: sum(b)", "record: 'a:b:sum', expr: c", alert)
        self.assertEqual(self.codes(path), [])

    def test_recorded_labels_of_files(self):
        """A query is looked at anew where another file records its metrics otherwise."""
        alert = "alert: C, expr: 'max by (zone) (a:b:sum) > 1'"
        for by, codes in (("job", [("P401", 5)]), ("zone", []), ("job", [("P401", 5)])):
            self.assertEqual(self.codes(self.rules(f"record: 'a:b:sum', expr: sum by ({by}) (b)", alert)), codes, by)

    def test_long_chain_of_records(self):
        rules = ["record: 'a:0:b', expr: sum by (c) (d)"]
        rules += [f"record: 'a:{number + 1}:b', expr: '2 * a:{number}:b'" for number in range(2_000)]
        alerts = [f"alert: F, expr: 'max by (e) (a:{number}:b) > 1'" for number in (3, 1_999)]
        begin = time.monotonic()
        self.assertEqual(self.codes(self.rules(*alerts, *rules)), [("P401", 4), ("P401", 5)])
        self.assertEqual(self.codes(self.rules(*rules, *alerts)), [("P401", 2005), ("P401", 2006)])
        self.assertLess(time.monotonic() - begin, 10)

    def test_many_records_of_one_name(self):
        rules = [f"record: 'a:b:c', expr: sum by (d{number % 100}) (e) + {number}" for number in range(1_000)]
        begin = time.monotonic()
        self.assertEqual(self.codes(self.rules(*rules, "alert: F, expr: 'a:b:c{g=\"h\"} > 1'")), [("P406", 1004)])
        self.assertLess(time.monotonic() - begin, 10)

    def test_record_of_many_labels(self):
        """Many labels of a metric are not followed into all that reads it."""
        by, reads = ", ".join(f"b{number}" for number in range(4_000)), "+".join(["a"] * 400)
        alerts = [f"alert: d, expr: 'sum by (e) ({reads}) > {number}'" for number in range(20)]
        path = self.rules(f"record: a, expr: 'sum by ({by}) (c)'", *alerts)
        begin = time.process_time()
        self.assertEqual(self.codes(path), [])
        self.assertLess(time.process_time() - begin, 10)

    def test_circles(self):
        circle = [f"record: a{number}, expr: sum(a{(number + 1) % 500})" for number in range(500)]
        self.assertEqual({code for code, _ in self.codes(self.rules(*circle))}, {"P702"})
        self.assertEqual(self.codes(self.rules(*circle[:-1])), [])
        self.assertEqual(self.codes(self.rules("record: a, expr: 'sum(c{d=\"b\"})'", "record: b, expr: max(a)")), [])
        self.assertEqual(self.codes(self.rules("record: a, expr: sum(a)")), [("P702", 4)])

    def test_recorded_twice(self):
        one, two = "record: a, expr: sum by (b) (c)", "record: a, expr: 'sum by (b)  (c)'"
        self.assertEqual(self.codes(self.rules(one, two)), [("P701", 5)])
        self.assertEqual(self.codes(self.rules(one, f"{two}, labels: {{d: e}}")), [])
        self.assertEqual(self.codes(self.rules(one, "record: a, expr: sum by (b) (d)")), [])
        # (each is told by its own metric, though both have the same query)
        path = self.rules(*(f"record: {name}, expr: up" for name in "aabb"))
        said = run("lint", path).out
        self.assertEqual([said.count(f"records `{name}` with the same labels") for name in "ab"], [1, 1], said)

    def test_templates(self):
        for label, is_found in (
            ("{{ $value }}", True),
            ("{{- .Value | humanize }}", True),
            ('{{ printf "%.2f" $value }}', True),
            ("{{ if gt $value 5.0 }}high{{ else }}low{{ end }}", False),
            ("{{/* $value */}}x", False),
            ("{{ $labels.zone }} {{ $values }}", False),
            ("$value", False),
        ):
            path = self.file(RULES.replace("annotations: {summary", "labels: {summary").replace('"{{ $labels.zone }}"', f"'{label}'"))
            self.assertEqual([code for code, _ in self.codes(path, "--select", "P5")], ["P504"] * is_found, label)
        for template, is_found in (
            ('{{ query "sum(up" }}', True),
            ("{{ range query `up{a=~\"(\"}` }}{{ end }}", True),
            ('{{ with query "up{job=\\"a\\"}" }}{{ . | first | value }}{{ end }}', False),
            ('{{ printf "up{" | query }} query "sum("', False),
            ('{{ query "a\\qb" }}', False),
        ):
            path = self.file(RULES.replace('"{{ $labels.zone }}"', f"'{template}'"))
            self.assertEqual([code for code, _ in self.codes(path, "--select", "P5")], ["P505"] * is_found, template)

    def test_aliases(self):
        text = "groups:\n- name: a\n  rules:\n  - record: b\n    expr: &x irate(c[5m]) > (1)\n  - alert: D\n    expr: *x\n"
        path = self.file(text)
        self.assertEqual(self.codes(path), [("P206", 5), ("P601", 5)])
        self.assertEqual(run("lint", "--fix", path).status, 1)
        self.assertEqual(path.read_text(), text.replace("(1)", "1"))
        kept = text + "    annotations: {e: *x}\n"
        path = self.file(kept)
        self.assertEqual(run("lint", "--fix", path).status, 1)
        self.assertEqual(path.read_text(), kept)

    def test_recorded(self):
        rules = "groups:\n- name: a\n  interval: 1m\n  rules:\n  - {record: b_total, expr: sum(c)}\n- name: d\n  rules:\n"
        path = self.file(rules + "  - {record: e, expr: 'rate(b_total[90s])'}\n")
        self.assertEqual(self.codes(path), [("P207", 8)])
        path = self.file(rules + "  - {record: e, expr: 'rate(b_total[2m])'}\n")
        self.assertEqual(self.codes(path), [])

    def test_silenced(self):
        for place, comment in (
            ("      - alert", "      # promql: ignore P1\n      - alert"),
            ("   # why", "   # promql: ignore P103"),
            ("   # why", "   # promql: ignore"),
            ("        annotations", "        # promql: ignore P103 since\n        annotations"),
            ("  # comments stay", "  # promql: ignore-file P103"),
        ):
            path = self.file(RULES.replace(place, comment, 1))
            self.assertEqual([code for code, _ in self.codes(path)], ["P104", "P207"], comment)
        path = self.file(RULES.replace("# no anchors", "# promql: ignore P104, P2"))
        self.assertEqual(self.codes(path), [("P103", 6)])
        path = self.file(RULES.replace("  - name: shop  #", "  - name: shop  # promql: ignore #"))
        self.assertEqual([code for code, _ in self.codes(path)], ["P003", "P103", "P104", "P207"])
        path = self.file(RULES.replace("      - record", "      # promql: ignore P104,P207\n      - record"))
        self.assertEqual(self.codes(path), [("P103", 6)])

    def test_no_rule_file(self):
        path = self.file("a: b\n")
        ran = run("lint", path)
        self.assertEqual((ran.status, ran.out), (1, f"{path}: no rules, no findings\n"))
        self.assertIn("this is no rule file", ran.err)
        self.assertEqual(run("lint", self.file("a: [")).status, 2)
        self.assertEqual(run("lint", self.folder / "none.yml").status, 2)
        self.assertEqual(run("lint", self.folder).status, 66)

    def test_styles(self):
        """Fixed files have the fixed queries, and all else as it was."""
        generator = random.Random(3)
        for number in range(60):
            rules, wanted = [], []
            for query, style in [(generator.choice(FIXABLE), generator.choice(STYLES)) for _ in range(4)]:
                written = write(generator, query, style, 8)
                if written:
                    rules.append(f"  - record: r{len(rules)}  # a comment\n    expr: {written.text}\n    labels: {{a: b}} # d\n")
                    wanted.append(query)
            if not rules:
                continue
            path = self.file("groups:\n- name: a\n  rules:\n" + "".join(rules), f"{number}.yml")
            before = path.read_text()
            old = self.loaded(before)
            found = [rule["expr"] for rule in old["groups"][0]["rules"]]
            ran = run("lint", "--fix", path)
            self.assertLess(ran.status, 2, ran.err + before)
            new = self.loaded(path.read_text())
            for rule, query in zip(old["groups"][0]["rules"], found):
                rule["expr"] = lint.fix(query.rstrip())
            for rule in new["groups"][0]["rules"]:
                rule["expr"] = rule["expr"].rstrip()
            self.assertEqual(new, old, before)
            self.assertEqual(path.read_text().count("# a comment"), len(rules))

    def test_made_files(self):
        """Files as people write them, with their queries fixed, are accepted, and nothing is left to fix."""
        folder = self.folder / "made"
        subprocess.run([sys.executable, HERE.parents[2] / "bench" / "rules" / "generate.py", folder, "12"], check=True)
        ran = run("lint", "--fix", folder)
        self.assertEqual((ran.status, ran.err), (1, ""))
        self.assertIn("query fixed", ran.out)
        self.assertNotIn("(--fix)", ran.out)
        self.assertEqual(run("check", folder).status, 0)
        before = [path.read_bytes() for path in sorted(folder.iterdir())]
        self.assertNotIn("fixed", run("lint", "--fix", folder).out)
        self.assertEqual([path.read_bytes() for path in sorted(folder.iterdir())], before)

    @staticmethod
    def loaded(text):
        return ruamel.yaml.YAML(typ="safe", pure=True).load(text)

    @unittest.skipUnless(ALERTS.is_file(), "ceph-prometheus-alerts is not installed")
    def test_rules_of_a_package(self):
        self.assertEqual(self.codes(ALERTS), [])
        self.assertEqual([code for code, _ in self.codes(ALERTS, "--select", "all")], ["P202"])

    def test_page(self):
        """What the page shows is what is printed."""
        file, shown = re.search(r"```yaml\n(groups:.*?)```\n\n```sh\n\$ [^\n]*\n(.*?)```", PAGE.read_text(), re.S).groups()
        path = self.file(file, "alerts.yml")
        self.assertEqual(run("lint", path).out.replace(str(path), "alerts.yml"), shown)


if __name__ == "__main__":
    unittest.main()
