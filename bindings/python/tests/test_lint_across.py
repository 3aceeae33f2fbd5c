"""Tests of the linter over several files: what the rules of all of them record."""

import json
import os
import time

from command_line import run
from promql.lint.records import RecordedRule, Records
from rule_verdicts import GROUP
from test_rule_files import Folder


def rules(*pairs, labels="{}"):
    """A file of rules: a name with `:` is recorded."""
    kinds = (f"  - {'record' if ':' in name else 'alert'}: {name}\n    labels: {labels}\n    expr: {json.dumps(query)}\n" for name, query in pairs)
    return GROUP + "  rules:\n" + "".join(kinds)


class Across(Folder):
    def found(self, *options, files=(), status=1):
        """The codes with their files and lines, and the messages."""
        ran = run("lint", "--output", "json", "--select", "P4,P7", *options, *(files or [self.folder]))
        self.assertEqual(ran.status, status, ran.err)
        return [(it["code"], f"{os.path.basename(it['file'])}:{it['line']}", it["message"]) for it in json.loads(ran.out)]

    def test_recorded_twice(self):
        self.file(rules(("job:a:sum", "sum by (job) (a)")), "a.yml")
        self.file(rules(("job:b:sum", "sum by (job) (b)"), ("job:a:sum", "sum by (job) (a)")), "b.yml")
        message = "another rule of these files records `job:a:sum` with the same labels"
        self.assertEqual(self.found(), [("P701", "b.yml:9", message)])
        both = [self.folder / "b.yml", self.folder / "a.yml"]
        self.assertEqual(self.found(files=both), [("P701", "a.yml:6", message)])
        self.assertEqual(self.found(files=both[:1], status=0), [])
        self.assertEqual(self.found(files=[both[0], both[0]], status=0), [])
        # (other labels, or another query with labels)
        self.file(rules(("job:a:sum", "sum by (job) (a)"), labels="{site: x}"), "a.yml")
        self.assertEqual(self.found(status=0), [])
        self.file(rules(("job:a:sum", "sum by (job) (c)")), "a.yml")
        self.assertEqual(self.found(status=0), [])
        # The results of both have no labels.
        self.file(rules(("all:a:sum", "sum(a)")), "a.yml")
        self.file(rules(("all:a:sum", "max(c)")), "b.yml")
        self.assertEqual([it[:2] for it in self.found()], [("P701", "b.yml:6")])

    def test_circle(self):
        self.file(rules(("job:a:sum", "sum by (job) (job:c:sum)")), "a.yml")
        self.file(rules(("job:b:sum", "sum by (job) (job:a:sum)")), "b.yml")
        self.assertEqual(self.found(status=0), [])
        self.file(rules(("job:c:sum", "job:b:sum > 5")), "c.yml")
        self.assertEqual([it[:2] for it in self.found()], [("P702", "a.yml:6"), ("P702", "b.yml:6"), ("P702", "c.yml:6")])
        self.file(rules(("job:c:sum", "job:b:sum offset 1m > 5")), "c.yml")
        self.assertEqual([it[:2] for it in self.found()], [("P702", "a.yml:6"), ("P702", "b.yml:6")])

    def test_not_recorded(self):
        alerts = self.file(rules(("A", "job:a:sum > 5"), ("B", "job:a:rate > 5"), ("C", "job:x:sum > 5"), ("D", "a:b > 5 or up > 5")), "alerts.yml")
        # (nothing is recorded there: the rules that do it are elsewhere)
        self.file(rules(("E", "up > 5")), "more.yml")
        self.assertEqual(self.found(status=0), [])
        self.file(rules(("job:a:sum", "sum by (job) (a)")), "records.yml")
        wanted = [
            ("P703", "alerts.yml:9", "no rule of these files records `job:a:rate`, and one records `job:a:sum`"),
            ("P703", "alerts.yml:12", "no rule of these files records `job:x:sum`"),
        ]
        self.assertEqual(self.found(), wanted)
        self.assertEqual(self.found("--jobs", "3"), wanted)
        self.assertEqual(self.found(files=[alerts], status=0), [])
        self.file(rules(("job:x:sum", "sum by (job) (x)"), ("job:a:rate", "sum by (job) (rate(a[5m]))")), "z.yml")
        self.assertEqual(self.found(status=0), [])

    def test_labels(self):
        self.file(rules(("A", 'job:a:sum{zone="x"} > 5'), ("B", 'job:a:sum{job="x"} > 5')), "a.yml")
        self.file(rules(("job:a:sum", "sum by (job) (b:c)"), ("b:c", "sum by (job, zone) (x)")), "b.yml")
        self.assertEqual(self.found(), [("P406", "a.yml:6", "no series match: the rule that records `job:a:sum` keeps no label `zone`")])
        self.file(rules(("job:a:sum", "sum by (job, zone) (c)")), "c.yml")
        self.assertEqual(self.found(status=0), [])

    def test_alone(self):
        """Standard input and pipes, which are read once, and queries that are given are looked at by themselves."""
        path = self.file(rules(("job:a:sum", "sum by (job) (a)")))
        ran = run("lint", "--select", "P7", path, "-", stdin=rules(("A", "job:x:sum > 5")).encode())
        self.assertEqual(ran.status, 0, ran.out)
        self.assertEqual(run("lint", "--select", "P7", "--query", "job:x:sum > 5", path).status, 0)
        pipe = self.folder / "pipe.yml"
        os.mkfifo(pipe)
        # (so that there is a reader for what is written before the run)
        reader = os.open(pipe, os.O_RDONLY | os.O_NONBLOCK)
        self.addCleanup(os.close, reader)
        pipe.write_text(rules(("job:x:sum", "job:x:sum > 5")))
        ran = run("lint", "--select", "P7", path, pipe)
        self.assertIn(f"{pipe}: 1 rule, 1 finding", ran.out)

    def test_others(self):
        """Files that cannot be read, ConfigMaps, dashboards, and what comments and settings silence."""
        self.file("groups: [\n", "broken.yml")
        self.file(json.dumps({"panels": [{"targets": [{"expr": "job:x:sum > 5"}]}]}), "board.json")
        text = "".join(f"    {line}\n" for line in rules(("job:a:sum", "sum by (job) (a)")).splitlines())
        self.file("apiVersion: v1\nkind: ConfigMap\ndata:\n  a.yml: |\n" + text, "map.yml")
        self.file(rules(("A", 'job:a:sum{zone="x"} > 5'), ("B", "job:x:sum > 5  # promql: ignore P703")), "rules.yml")
        self.assertEqual([it[0] for it in self.found(status=2)], ["file", "P406"])

    def test_fixed(self):
        self.file(rules(("job:a:sum", "sum by (job) (a)")), "a.yml")
        path = self.file(rules(("A", 'job:x:sum{job=~"x"} > 5')), "b.yml")
        ran = run("lint", "--fix", self.folder)
        self.assertIn('job:x:sum{job=\\"x\\"}', path.read_text())
        self.assertEqual((ran.status, ran.out.count("P703")), (1, 1))

    def test_keys(self):
        """A query is looked at again where a rule changed that records what it reads, or what that reads, and for no other change."""

        def key(query, rules, **changed):
            return Records(RecordedRule(name, text) for name, text in {**rules, **changed}.items()).key_of(query)

        rules = {"a": "b + c", "b": "d", "c": "sum(x)", "d": "c", "e": "x", "f": "g", "g": "f", "h": "f"}
        for query, reached in (("a > 1", "abcd"), ("c / b", "bcd"), ("e", "e"), ("h", "abcdefgh"), ("g", "abcdefgh")):
            for name, text in rules.items():
                is_other = key(query, rules, **{name: f"{text} + 1"}) != key(query, rules)
                self.assertEqual(is_other, name in reached, (query, name))
        self.assertEqual([key("x", rules), key("up", {}), key(r'x{y=~"z\\.\\w"}', rules)], [None] * 3)
        # (an escape may be a letter of a name)
        self.assertNotEqual(key(r'{"\x61"}', rules), None)
        # (the name of any rule may be like one that is not recorded, and any may be in a circle)
        self.assertNotEqual(key("a:b:sum", {"a:b:rate": "x"}), key("a:b:sum", {"a:b:rate": "x", "c": "x"}))

    def test_dear(self):
        """Rules that record what others do are looked at once, and not with each of these, up to the bound of tokens."""
        label = "+".join(f"a{number}" for number in range(400))
        pairs = [(f"m:r{number}", f"sum by (job) ({label}) + {number}") for number in range(20)]
        for name in ("a.yml", "b.yml"):
            self.file(rules(*pairs, *((f"m:s{number}", f"m:r{number % 20} + {number}") for number in range(5_000))), name)
        start = time.process_time()
        ran = run("lint", "--select", "P7", self.folder)
        self.assertEqual(ran.status, 2)
        self.assertGreater(ran.out.count("P701"), 100)
        self.assertLess(time.process_time() - start, 12)
