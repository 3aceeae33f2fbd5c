"""Tests of what `check` says of rules beside their queries, and of its verdicts beside those of promtool."""

import gzip
import json
import random
import re
import shutil
import subprocess
import unittest
from pathlib import Path
from unittest import mock

import rule_verdicts
from command_line import run
from promql import yaml_events
from promql.go_templates import fault_of
from rule_verdicts import AFTER_ALERT, DIFFERENT, FILES, NO_TEMPLATES, RULES, TEMPLATES, file_at_random
from syntax_errors import NO_OPERAND
from test_rule_files import NO_QUERY, Folder, aliases

# The statuses of a file without faults: that with queries, and that without one.
TAKEN = (0, 66)
# Where packages of Debian have rule files.
PLACES = ("/etc/prometheus", "/usr/share/doc", "/usr/share/gocode/src/github.com")
# Pieces of templates, right and wrong.
PIECES = (
    "{{", "}}", "{{ ", " }}", " -}}", "{{- ", "{{/* c */}}", "$labels", "$value", "$x", "$", ".", ".a", ".Labels", " | ", "|",
    " ", "  ", "\n", "(", ")", '"a"', "`b`", "'c'", "1", "-1", "1.5", "5m", "0x1F", ".5", "humanize", "printf", "query",
    "foo", "true", "nil", "if", "else", "end", "range", "with", "define", "template", "block", "break", "{{ if 1 }}",
    "{{ end }}", "{{ else }}", "{{ else if 1 }}", '{{ range query "up" }}', "{{ with $x := 1 }}", '{{ define "a" }}',
    '{{ template "a" }}', '{{ block "a" . }}', "{{ break }}", ":=", " := ", "=", ",", "$x := 1", "é", '"\\q"', "{", "}", "-",
    "+", "text", "and", "==", '"}}"', "{{ $value | humanize }}",
)  # fmt: skip


def rejected(paths):
    """Which of these files promtool rejects."""
    command = ["promtool", "check", "rules", *paths]
    said = subprocess.run(command, stdout=subprocess.PIPE, stderr=subprocess.STDOUT, check=False).stdout.decode()
    wrong = set(re.findall(r"^(/\S+): ", said, re.M))
    return [str(path) in wrong for path in paths]


def takes(template):
    return not fault_of(template)


def alerts(templates):
    """A rule file whose alerts have these texts as annotations."""
    rules = (
        f"  - alert: A{number}\n    expr: up\n    annotations: {{a: {json.dumps(it)}}}\n" for number, it in enumerate(templates)
    )
    return RULES + "".join(rules)


class Files(Folder):
    def test_first_message(self):
        for reader in (yaml_events._reader, lambda: None):
            for text, _, message in (*FILES, *DIFFERENT):
                with self.subTest(text), mock.patch.object(yaml_events, "_reader", reader):
                    path = self.file(text)
                    ran = run("check", path)
                    said = ran.err.replace(NO_QUERY, "")
                    self.assertEqual(said.partition("\n")[0], f"{path}:{message}" if message else "")
                    self.assertEqual(ran.status in TAKEN, not message or "warning: " in message)

    def test_verdicts(self):
        """`check` takes what promtool takes, but for what is documented."""
        for table, is_same in ((FILES, True), (DIFFERENT, False)):
            for text, is_taken, _ in table:
                self.assertEqual((run("check", self.file(text)).status in TAKEN) == is_taken, is_same, text)

    def test_queries_alone(self):
        text = AFTER_ALERT + "    for: x\n    foo: bar\n    labels: {a-b: c}\n"
        path = self.file(text)
        self.assertEqual(run("check", path).status, 1)
        self.assertEqual(run("check", "--queries", path), (0, f"{path}: 1 rule, no errors\n", ""))

    def test_format_looks_at_queries(self):
        text = RULES + "  - expr: up==0\n    for: x\n"
        ran = run("format", self.file(text))
        self.assertEqual((ran.status, ran.out), (0, text.replace("==", " == ")))

    def test_all_faults(self):
        text = (
            "groups:\n- name: a\n  interval: 5\n  rules:\n  - record: b-c\n    expr: up ==\n    for: 5m\n    labels: {a: {}}\n"
        )
        path = self.file(text)
        ran = run("check", path)
        said = [line.partition(f"{path}:")[2] for line in ran.err.split("\n") if str(path) in line]
        self.assertEqual(
            said,
            [
                "3:13: `interval` is not a duration",
                "5:13: not a metric's name: `b-c`",
                "6:16: " + NO_OPERAND,
                "7:5: `for` is for alerts",
                "8:17: a label's value is not a text",
            ],
        )
        self.assertEqual(ran.out, f"{path}: 1 rule, 5 errors\n")
        self.assertIn("\n  - record: b-c\n            ^~~\n", ran.err)

    def test_warnings_are_no_errors(self):
        path = self.file(AFTER_ALERT + "  - alert: B\n    expr: down\n")
        self.assertEqual(run("check", path)[:2], (0, f"{path}: 2 rules, no errors\n"))


class Templates(unittest.TestCase):
    def test_templates(self):
        for template in TEMPLATES:
            self.assertTrue(takes(template), template)
        for template in NO_TEMPLATES:
            self.assertFalse(takes(template), template)

    def test_deep(self):
        """What is nested too deeply is rejected, and takes no time."""
        for text in ("{{ " + "(" * 100_000, "{{ if 1 }}" * 100_000, "{{ (" * 100_000):
            self.assertFalse(takes(text))
        self.assertTrue(takes("{{ 1 }}" * 20_000))
        self.assertFalse(takes("{{ 1 }" * 20_000))
        self.assertFalse(takes("{{ " + "1" * 100_000 + "m }}"))


class Attacks(Folder):
    def test_aliases(self):
        """Each group and each rule is looked at once."""
        ran = run("check", self.file(aliases(100, 100)))
        self.assertEqual((ran.status, ran.out.split(": ")[1]), (1, "10000 rules, 4 errors\n"))

    def test_merges(self):
        """Labels that merge nine others sixty times over."""
        rules = ["  - {alert: A0, expr: up, labels: &m0 {l0: x}}\n"]
        for number in range(1, 60):
            merged = ", ".join([f"*m{number - 1}"] * 9)
            rules.append(f"  - {{alert: A{number}, expr: up, labels: &m{number} {{<<: [{merged}], l{number}: x}}}}\n")
        ran = run("check", self.file(RULES + "".join(rules)))
        self.assertEqual((ran.status, ran.out.split(": ")[1], ran.err), (0, "60 rules, no errors\n", ""))

    def test_many_entries(self):
        """A list of mappings that very many labels merge."""
        lists = ", ".join(f"{{l{number}: x}}" for number in range(1500))
        rules = "".join(f"  - {{alert: A{number}, expr: up, labels: {{<<: *m}}}}\n" for number in range(1500))
        ran = run("check", self.file(f"{RULES}  - {{alert: A, expr: up, labels: {{<<: &m [{lists}]}}}}\n{rules}"))
        self.assertEqual((ran.status, ran.out), (2, ""))
        self.assertIn("its merge keys make more than 200,000 entries of it", ran.err)

    def test_deep_merges(self):
        text = RULES + "  - {alert: A, expr: up, labels: " + "{<<: " * 90 + "{}" + "}" * 90 + "}\n"
        self.assertEqual(run("check", self.file(text)).status, 0)
        chain = "".join(f"- &m{number} {{<<: *m{number - 1}}}\n" for number in range(1, 2000))
        ran = run("check", self.file(f"x:\n- &m0 {{expr: up}}\n{chain}{RULES}  - {{alert: A, <<: *m1999}}\n"))
        self.assertEqual((ran.status, ran.out), (2, ""))
        self.assertIn("nested too deeply", ran.err)

    def test_long_numbers(self):
        for text, message in ((f"    for: {'9' * 5000}m\n", "292 years"), (f"    for: {'0' * 5000}5m\n", "")):
            self.assertIn(message, run("check", self.file(AFTER_ALERT + text)).err)
        for number in ("9" * 5000, "0x" + "f" * 5000, "1e" + "9" * 5000):
            self.assertIn("not a number", run("check", self.file(f"{rule_verdicts.GROUP}  limit: {number}\n")).err)


@unittest.skipUnless(shutil.which("promtool"), "there is no promtool here")
class Promtool(Folder):
    """The verdicts that are typed are those of promtool 2.42."""

    @classmethod
    def setUpClass(cls):
        version = subprocess.run(
            ["promtool", "--version"], stdout=subprocess.PIPE, stderr=subprocess.STDOUT, check=False
        ).stdout
        if b"version 2.42." not in version:
            raise unittest.SkipTest("promtool is not of 2.42")

    def test_files(self):
        texts = (*FILES, *DIFFERENT)
        paths = [self.file(text, f"{number}.yml") for number, (text, _, _) in enumerate(texts)]
        for (text, is_taken, _), is_rejected in zip(texts, rejected(paths)):
            self.assertEqual(is_taken, not is_rejected, text)

    def wrong(self, templates):
        """Which templates promtool rejects, by their numbers."""
        command = ["promtool", "check", "rules", self.file(alerts(templates))]
        said = subprocess.run(command, stdout=subprocess.PIPE, stderr=subprocess.STDOUT, check=False).stdout.decode()
        return {int(number) for number in re.findall(r'"A(\d+)": annotation "a": template', said)}

    def test_templates(self):
        wrong = self.wrong([*TEMPLATES, *NO_TEMPLATES])
        self.assertEqual(sorted(wrong), list(range(len(TEMPLATES), len(TEMPLATES) + len(NO_TEMPLATES))))

    def test_templates_at_random(self):
        generator = random.Random(7)
        templates = ["".join(generator.choices(PIECES, k=generator.randrange(1, 12))) for _ in range(6000)]
        templates += ["{{ " + "".join(generator.choices(PIECES, k=generator.randrange(1, 6))) + " }}" for _ in range(6000)]
        wrong = self.wrong(templates)
        for number, template in enumerate(templates):
            self.assertEqual(takes(template), number not in wrong, template)

    def test_files_at_random(self):
        """Files with right and wrong values in each field."""
        generator = random.Random(5)
        paths = [self.file(file_at_random(generator), f"{number}.yml") for number in range(1500)]
        wrong = rejected(paths)
        self.assertTrue(200 < sum(wrong) < 1300, sum(wrong))
        for path, is_rejected in zip(paths, wrong):
            with self.subTest(path.read_text(encoding="utf-8")):
                self.assertEqual(run("check", path).status not in TAKEN, is_rejected)

    def test_files_of_packages(self):
        """What the packages of this machine have: the same verdict, but where a file has fields of later versions."""
        for path in sorted(rule_files_of_packages()):
            data = gzip.decompress(path.read_bytes()) if path.suffix == ".gz" else path.read_bytes()
            if b"\n    labels:" in data.partition(b"rules:")[0]:
                continue
            copy = self.file(data)
            with self.subTest(path):
                self.assertEqual([run("check", copy).status != 0], rejected([copy]))


def rule_files_of_packages():
    for folder in PLACES:
        for pattern in ("*.yml", "*.yaml", "*.rules", "*rules*.yml.gz"):
            for path in filter(Path.is_file, Path(folder).rglob(pattern)):
                data = gzip.decompress(path.read_bytes()) if path.suffix == ".gz" else path.read_bytes()
                if re.search(rb"^groups:", data, re.M):
                    yield path


if __name__ == "__main__":
    unittest.main()
