"""Tests of the quick pass over rule files: where it finds one in order, the readers that tell of places have nothing to tell."""

import os
import random
import unittest
from unittest import mock

import rule_verdicts
import test_quick_yaml
from command_line import run
from promql import documents, yaml_events
from promql.checked_queries import FileBounds, QueryChecker
from promql.files import Source, Unclear
from promql.quick_rules import RulesInOrder
from rule_verdicts import RULES
from test_quick_yaml import PIECES, RANDOM, readers
from test_rule_files import PLACES, RULE, Folder, file_of

ALERT = RULES + "  - alert: A\n    expr: up\n"
# What is in order, with how many rules.
TAKEN = {
    "an alert": (file_of("up"), 1),
    "a record": (RULES + "  - {record: a, expr: up, labels: {b: c}}\n", 1),
    "all fields of an alert": (
        ALERT + "    for: 1h30m\n    keep_firing_for: 5m\n    labels: {a: b}\n    annotations:\n      c: '{{ $value }}'\n      d: é 🦀\n",
        1,
    ),
    "an interval": ("groups:\n- name: a\n  interval: 1m\n  rules:\n  - {record: b, expr: up}\n", 1),
    "alerts of one name": (ALERT + "  - alert: A\n    expr: up\n    labels: {a: b}\n", 2),
    "other styles": (RULES + "  - record: 'a'\n    expr: |\n      up\n\n      > 1\n  - 'record': b\n    \"expr\": >-\n      up\n      > 1\n", 2),
    "two groups": (ALERT + "- name: 'b'\n  rules:\n  - alert: B\n    expr: 'up'\n", 2),
    "comments": ("# a\n" + ALERT.replace("\n", " # b\n") + "# c\n", 1),
    "carriage returns": (ALERT.replace("\n", "\r\n"), 1),
    "the begin of a document": ("%YAML 1.2\n---\n" + ALERT, 1),
}
# What is wrong, warned of or rare.
LEFT = {
    "no rule": "groups: []\n",
    "groups twice": "groups: []\n" + ALERT,
    "a group twice": ALERT + ALERT[len("groups:\n") :],
    "a rule twice": ALERT + "  - alert: A\n    expr: up\n",
    "a field twice": ALERT + "    expr: up\n",
    "a label twice": ALERT + "    labels: {a: b, a: c}\n",
    "an unknown field": ALERT + "    foo: bar\n",
    "a field of records alone": ALERT + "    record: a\n",
    "a field of alerts alone": RULES + "  - {record: a, expr: up, for: 5m}\n",
    "a field of a group": ALERT.replace("  rules:", "  limit: 5\n  rules:"),
    "a file of Mimir": "namespace: a\n" + ALERT,
    "no name": ALERT.replace("alert: A", "alert: ''"),
    "no query": RULES + "  - alert: A\n",
    "a query that is rejected": file_of("up =="),
    "a query of another kind": ALERT.replace("up", "[up]"),
    "no duration": ALERT + "    for: 5\n",
    "a long duration": ALERT + "    for: 300y\n",
    "no template": ALERT + "    annotations: {a: '{{ foo }}'}\n",
    "a label of the metric's name": ALERT + "    labels: {__name__: a}\n",
    "a query of Loki": RULES + "  - alert: A\n    expr: rate({a=\"b\"} |= \"c\" [5m])\n",
    "two documents": ALERT + "---\n" + ALERT,
    "an anchor": ALERT + "    labels: &a {b: c}\n",
    "an alias": RULES + "  - &a {record: a, expr: up}\n  - *a\n",
    "a tag": ALERT.replace("up", "!!str up"),
    "a merge key": ALERT + "    <<: {for: 5m}\n",
    "a TAB": ALERT.replace("up", "'up\t'"),
    "a comment before a colon": ALERT.replace("    expr: up", "    ? expr\n    # a\n    : up"),
    "no YAML": ALERT + "  - [\n",
    "many nodes": ALERT + "".join(f"  - {{record: a{number}, expr: up}}\n" for number in range(10_001)),
}


def rule_count(text, bounds=FileBounds()):
    """How many rules the quick pass finds; nothing for a file that it leaves."""
    try:
        return RulesInOrder(Source("a.yml", text, ""), QueryChecker(bounds)).rule_count
    except Unclear:
        return None


class QuickRules(Folder):
    def compare(self, text):
        """Whether the quick pass takes a text, of which the report is the same without it, and with each reader."""
        taken = rule_count(text)
        path = self.file(text)
        quick = run("check", "-v", path)
        for reader in readers():
            with mock.patch.object(yaml_events, "_reader", lambda: reader):
                self.assertEqual((run("check", "-v", path), rule_count(text)), (quick, taken), repr(text))
        with mock.patch.object(documents, "RulesInOrder", mock.Mock(side_effect=Unclear)):
            self.assertEqual(run("check", "-v", path), quick, repr(text))
        return taken is not None

    def test_in_order(self):
        for name, (text, rules) in TAKEN.items():
            self.assertEqual(rule_count(text), rules, name)
            self.assertTrue(self.compare(text), name)

    def test_left(self):
        for name, text in LEFT.items():
            self.assertIsNone(rule_count(text), name)
            self.compare(text)

    def test_bounds(self):
        """A file within a bound is taken, and the same one beyond it is left."""
        patterns = "".join(f'  - {{record: a{number}, expr: \'a{{b=~"c.{number}"}}\'}}\n' for number in range(9))
        for text, name in ((ALERT, "max_file_nodes"), (RULES + patterns, "max_file_patterns")):
            most = next(most for most in range(1, 10_000) if rule_count(text, FileBounds()._replace(**{name: most})))
            self.assertIsNone(rule_count(text, FileBounds()._replace(**{name: most - 1})), name)
            path = self.file(text)
            option = f"--{name.replace('_', '-')}"
            self.assertEqual([run("check", f"{option}={it}", path).status == 0 for it in (most, most - 1)], [True, False], name)

    def test_files(self):
        texts = [text for text, *_ in (*rule_verdicts.FILES, *rule_verdicts.DIFFERENT)]
        texts += [(RULE + lines + "\n").replace("\n", line_end) for lines, *_ in PLACES.values() for line_end in ("\n", "\r\n", "\r")]
        texts += [*test_quick_yaml.UNUSUAL.values(), *test_quick_yaml.TAKEN.values()]
        self.assertGreater(sum(map(self.compare, texts)), 20)

    def test_at_random(self):
        """Files in order, with some characters changed."""
        generator, taken = random.Random(5), 0
        for _ in range(6 * RANDOM):
            text, _ = generator.choice([*TAKEN.values()])
            for _ in range(generator.randrange(1, 3)):
                at = generator.randrange(len(text))
                text = text[:at] + generator.choice((*PIECES, "")) + text[at + generator.randrange(3) :]
            taken += self.compare(text)
        self.assertGreater(taken, RANDOM // 10)

    def test_same_file(self):
        """A pipe is read once."""
        reader, writer = os.pipe()
        os.write(writer, file_of("up ==").encode())
        os.close(writer)
        self.assertIn(":5:17: ", run("check", f"/dev/fd/{reader}").err)
        os.close(reader)


if __name__ == "__main__":
    unittest.main()
