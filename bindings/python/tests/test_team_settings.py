"""Tests of the settings of a team, which are in a file above those that are looked at."""

import importlib.util
import unittest
from unittest import mock

import promql
from command_line import run
from rule_verdicts import AFTER_ALERT, RULES
from test_rule_files import Folder

FINDINGS = RULES + "  - alert: A\n    expr: up{job=~'a'} == 0\n  - alert: B\n    expr: rate(queue[5m]) > (1)\n"
HAS_TOML = any(map(importlib.util.find_spec, ("tomllib", "tomli")))
NAMES = "select, ignore, add, exclude, fail-on, strict, width, style, limits, paths"


@unittest.skipUnless(HAS_TOML, "there is no tomllib or tomli here")
class Settings(Folder):
    def setUp(self):
        super().setUp()
        self.rules = self.folder / "team" / "shop" / "rules.yml"
        self.rules.parent.mkdir(parents=True)
        self.rules.write_text(FINDINGS)

    def put(self, text, name=".promql.toml", folder=""):
        path = self.folder / folder / name
        path.write_text(text)
        return path

    def codes(self, *options):
        return [line.split(": ")[1].split(" ")[-1] for line in run("lint", *options, self.rules).out.splitlines() if ".yml:" in line and " P" in line]

    def test_codes(self):
        self.assertEqual(self.codes(), ["P103", "P601"])
        for text, codes in (
            ('ignore = ["P1"]', ["P601"]),
            ('select = ["P6"]', ["P601"]),
            ('add = ["P202"]', ["P103", "P202", "P601"]),
            ('ignore = ["P6"]\n[[paths]]\nfiles = ["team/*"]\nadd = ["P601"]\nignore = ["P103"]', ["P601"]),
            ('[[paths]]\nfiles = ["other/*"]\nignore = ["P"]', ["P103", "P601"]),
            ('[[paths]]\nfiles = ["shop"]\nignore = ["P"]\n[[paths]]\nfiles = ["rules.*"]\nadd = ["P103"]', ["P103"]),
        ):
            self.put(text)
            self.assertEqual(self.codes(), codes, text)
        self.put('ignore = ["P1"]\nselect = ["P6"]')
        self.assertEqual(self.codes("--select", "P1"), ["P103"])
        self.assertEqual(self.codes("--ignore", "P6"), [])

    def test_nearest(self):
        """The nearest file counts alone, and a pyproject.toml without settings is none."""
        self.put('ignore = ["P1"]')
        self.put("[tool.other]\npromql = 5\n", "pyproject.toml", "team")
        self.assertEqual(self.codes(), ["P601"])
        self.put('[tool.promql]\nignore = ["P6"]\n', "pyproject.toml", "team")
        self.assertEqual(self.codes(), ["P103"])
        given = self.put("", "none.toml")
        self.assertEqual(self.codes("--config", given), ["P103", "P601"])
        self.put('ignore = ["P"]', folder="team/shop")
        self.assertEqual(self.codes(), [])

    def test_statuses(self):
        self.put('fail-on = "error"')
        self.assertEqual(run("lint", self.rules).status, 0)
        self.assertEqual(run("lint", "--fail-on", "info", self.rules).status, 1)
        values = self.put("a: {expr: up}\nb:\n  groups: [{name: a, rules: [{alert: B, expr: up}]}]\n", "values.yaml")
        self.assertEqual(run("check", values).status, 0)
        self.put("strict = true")
        self.assertEqual(run("check", values).status, 1)

    def test_files(self):
        self.put('exclude = ["team/*"]')
        self.assertEqual(run("check", self.rules).status, 0)
        self.assertEqual(run("check", self.folder).status, 66)
        said = f"{self.rules}: skipped: left out by {self.folder / '.promql.toml'}\n"
        self.assertIn(said, run("check", "-v", self.folder).err)

    def test_layout(self):
        self.rules.write_text(AFTER_ALERT.replace("expr: up", "expr: sum(a_long_name) by (job) / sum(b_long_name) by (job)"))
        self.assertNotIn("|", run("format", self.rules).out)
        self.put('width = 40\nstyle = "people"')
        self.assertIn("|-\n      sum by (job) (a_long_name)\n      / sum by (job) (b_long_name)\n", run("format", self.rules).out)
        self.assertIn("|2-", run("format", "--style", "pretty", self.rules).out)
        self.assertNotIn("|", run("format", "--width", "100", self.rules).out)

    def test_limits(self):
        """They are those of the files below, and of no other."""
        before = promql.limits()
        other = self.put(FINDINGS, "other.yml")
        self.put("[limits]\nmax-patterns = 5\n", folder="team")
        for jobs in (1, 2):
            ran = run("check", "--jobs", jobs, other, self.rules, other)
            self.assertEqual([line.rpartition(", ")[2] for line in ran.out.splitlines()], ["no errors", "1 error", "no errors"])
            self.assertIn("patterns are too large: 7, at most 5", ran.err)
        self.put("[limits]\nmax-file-patterns = 1\nmax-len = 10\n", folder="team")
        self.assertIn("2 errors", run("check", self.rules).out)
        self.assertEqual(run("check", "--max-file-patterns", "100", self.rules).err.count("too large together"), 0)
        self.assertEqual(promql.limits(), before)

    def test_wrong(self):
        for text, said in (
            ("colour = 1", f"no setting is called `colour`: {NAMES}"),
            ("ignore = 5", "`ignore` is not a list of texts"),
            ('ignore = ["Q"]', "`ignore`: no rule has a code that begins with 'Q'"),
            ('fail-on = "never"', "`fail-on` is not one of info, warning, error"),
            ("strict = 1", "`strict` is not true or false"),
            ("limits = 1", "`limits` is not a table"),
            ("[limits]\nmax-len = -1", f"`limits.max-len` is not a number from 0 to {2**64 - 1}"),
            ("[limits]\nmax-len = true", f"`limits.max-len` is not a number from 0 to {2**64 - 1}"),
            ("[limits]\nmax = 1", "no setting is called `limits.max`: max-len, "),
            ("[[paths]]\nignore = []", "`paths` without `files`"),
            ("paths = [1]", "`paths` is not a list of tables"),
            ("a = [", "not TOML: "),
            ("a = " + "[" * 100_000, ""),
        ):
            path = self.put(text)
            for command in ("check", "lint", "format"):
                ran = run(command, self.rules)
                self.assertEqual((ran.status, ran.out), (2, ""), text)
                self.assertTrue(ran.err.startswith(f"{path}: {said}"), ran.err)
        path.write_bytes(b"a = '\xff'")
        self.assertEqual(run("check", self.rules).err, f"{path}: not UTF-8 at byte 5\n")
        self.assertEqual(run("check", "--config", self.folder / "none", self.rules).status, 2)
        path.unlink()
        self.put("[tool]\npromql = 5\n", "pyproject.toml")
        self.assertIn("`tool.promql` is not a table", run("check", self.rules).err)


class WithoutToml(Folder):
    def test_message(self):
        path = self.file(AFTER_ALERT)
        settings = self.folder / ".promql.toml"
        found = importlib.util.find_spec

        def find(name, *rest):
            return None if name in ("tomllib", "tomli") else found(name, *rest)

        with mock.patch("importlib.util.find_spec", find):
            self.assertEqual(run("check", path).status, 0)
            settings.write_text("")
            ran = run("check", path)
        self.assertEqual((ran.status, ran.err), (2, f"{settings}: settings need Python 3.11 or tomli: `pip install tomli`\n"))


if __name__ == "__main__":
    unittest.main()
