"""Tests of `promql-rules` with rule files."""

import difflib
import os
import random
import re
import signal
import stat
import subprocess
import sys
import tempfile
import time
import unittest
from pathlib import Path
from unittest import mock

import promql
from command_line import run
from promql import rule_files
from promql.files import Source
from promql.queries import Edit
from promql.scalars import Scalar
from syntax_errors import NO_OPERAND
from written import STYLES, rule_file, write

try:
    import ruamel.yaml
except ImportError as error:
    raise unittest.SkipTest("there is no ruamel.yaml here") from error

HERE = Path(__file__).resolve().parent
FILES = HERE / "files"
ROOT = HERE.parents[2]
NAMES = ("shop", "styles", "windows", "documents")
# How many rule files are made at random.
RANDOM = int(os.environ.get("PROMQL_RULE_FILES", "120"))
RULE = "groups:\n- name: a\n  rules:\n  - alert: B\n"
TWO_LINES = 'sum by (job) (rate(errors_total{job="api"}[5m])) / sum by (job) (rate(requests_total{job="api"}[5m]))'
# A rejected query in each style, the place of its error, the line that is shown and the mark below it.
PLACES = {
    "plain": ("    expr: up +* 5 # c", "5:15", "    expr: up +* 5 # c", "^"),
    "plain at its end": ("    expr: sum(rate(a[5m])   # c", "5:26", "    expr: sum(rate(a[5m])   # c", "^"),
    "plain on three lines": ("    expr: sum(\n      rate(\n        a))", "7:9", "        a))", "^"),
    "plain after an empty line": ("    expr: a +\n\n      b c", "7:9", "      b c", "^"),
    "plain below its key": ("    expr: &x\n      rate(a)", "6:12", "      rate(a)", "^"),
    "anchor and tag": ("    expr: !!str &x rate(foo)", "5:25", "    expr: !!str &x rate(foo)", "^~~"),
    "alias": ("    expr: &x rate(foo)\n  - {alert: A, expr: *x}", "5:19", "    expr: &x rate(foo)", "^~~"),
    "in braces": ("    expr: a\n  - {alert: A, expr: rate(foo)}", "6:27", "  - {alert: A, expr: rate(foo)}", "^~~"),
    "quoted key": ('    "expr": rate(foo)', "5:18", '    "expr": rate(foo)', "^~~"),
    "number": ("    expr: 0o17", "5:11", "    expr: 0o17", "^"),
    "single": ("    expr: 'it''s'", "5:14", "    expr: 'it''s'", "^~"),
    "single, after quotes": ("    expr: '{a=''b'',} c'", "5:23", "    expr: '{a=''b'',} c'", "^"),
    "single on two lines": ("    expr: 'a +\n      rate(foo)'", "6:12", "      rate(foo)'", "^~~"),
    "double": ('    expr: "{a=~\\"(\\"} + 1"', "5:16", '    expr: "{a=~\\"(\\"} + 1"', "^~~~~"),
    "double, after escapes": ('    expr: "\\x61\\u0062\\U00000063 d"', "5:33", '    expr: "\\x61\\u0062\\U00000063 d"', "^"),
    "double on three lines": ('    expr: "a \\\n      + b\n      c"', "7:7", '      c"', "^"),
    "double, empty": ('    expr: ""', "5:12", '    expr: ""', "^"),
    "literal": ("    expr: |\n      sum(\n        rate(foo)\n      )", "7:14", "        rate(foo)", "^~~"),
    "literal, empty": ("    expr: |-\n\n    for: 5m", "5:13", "    expr: |-", "^"),
    "literal, nothing but its first line": ("    expr: |+  # c", "5:18", "    expr: |+  # c", "^"),
    "literal at its end": ("    expr: |\n      sum(a\n\n    for: 5m", "6:12", "      sum(a", "^"),
    "literal, more to the right": ("    expr: |\n            a b", "6:15", "            a b", "^"),
    "literal with an indentation": ("    expr: |2-  # c\n        a\n      + b c", "7:11", "      + b c", "^"),
    "literal, keep": ("    expr: |+\n      a +\n\n\n", "6:10", "      a +", "^"),
    "folded": ("    expr: >\n      a\n      + rate(foo)", "7:14", "      + rate(foo)", "^~~"),
    "folded, farther in": ("    expr: >-\n      a\n        + b\n\n      + c d", "9:11", "      + c d", "^"),
    "folded with an indentation": ("    expr: >1\n      a\n     + b c", "7:10", "     + b c", "^"),
    "beyond ASCII": ("    expr: '\"é🦀\" + rate(foo)'", "5:24", "    expr: '\"é🦀\" + rate(foo)'", "^~~"),
    "tab": ("    expr: 'a\t+ b c'", "5:18", "    expr: 'a\t+ b c'", "^"),
}


def file_of(query, style=""):
    """A rule file with a query in single quotes, or written so."""
    return RULE + "    expr: " + (style or "'" + query.replace("'", "''") + "'") + "\n"


def aliases(groups, rules):
    """A rule file of so many groups, all aliases of one, with so many rules, all aliases of one."""
    return f"r: &r [&q {{expr: up}}{', *q' * (rules - 1)}]\ng: &g {{name: a, rules: *r}}\ngroups: [*g{', *g' * (groups - 1)}]\n"

PRETTY = ("format", "--style", "pretty")
NO_QUERY = "no query was found in 1 file\n"


class Folder(unittest.TestCase):
    """Tests with a folder of their own."""

    def setUp(self):
        folder = tempfile.TemporaryDirectory()
        self.addCleanup(folder.cleanup)
        self.folder = Path(folder.name)

    def file(self, text, name="a.yml"):
        path = self.folder / name
        path.write_bytes(text if isinstance(text, bytes) else text.encode())
        return path


class Formatted(Folder):
    def test_files(self):
        for name in NAMES:
            with self.subTest(name):
                wanted = (FILES / f"{name}.formatted.yml").read_bytes()
                path = self.file((FILES / f"{name}.yml").read_bytes())
                self.assertEqual(run(*PRETTY, path).out.encode(), wanted)
                self.assertEqual(run(*PRETTY, "--write", path).status, 0)
                self.assertEqual(path.read_bytes(), wanted)
                self.assertEqual(run("check", "--queries", path).status, 0)

    def test_again(self):
        for name in NAMES:
            path = FILES / f"{name}.formatted.yml"
            self.assertEqual(run(*PRETTY, path).out.encode(), path.read_bytes(), name)
            self.assertEqual(run(*PRETTY, "--check", path)[:2], (0, ""), name)

    def test_default(self):
        """Without a style queries are laid out for people, with their comments, and line ends and marks of the file stay."""
        for name in NAMES:
            path = self.file((FILES / f"{name}.yml").read_bytes())
            self.assertEqual(run("format", path), run("format", "--style", "people", path))
            before = path.read_bytes()
            self.assertEqual(run("format", "--write", path).status, 0, name)
            after = path.read_bytes()
            self.assertEqual([it in after for it in (b"\r\n", b"\xef\xbb\xbf")], [it in before for it in (b"\r\n", b"\xef\xbb\xbf")], name)
            self.assertEqual(re.findall(rb"[^\r]\n", after) == [], re.findall(rb"[^\r]\n", before) == [], name)
            self.assertEqual((run("format", "--check", path).status, run("check", "--queries", path).status), (0, 0), name)

    def test_only_queries_change(self):
        key = re.compile(r"^[ -]*\"?(\w+)\"?:")
        for name in NAMES:
            old, new = ((FILES / f"{name}{end}.yml").read_text().split("\n") for end in ("", ".formatted"))
            for operation, start, end, *_ in difflib.SequenceMatcher(None, old, new, autojunk=False).get_opcodes():
                for at in range(start, end) if operation != "equal" else ():
                    above = next(line for line in reversed(old[: at + 1]) if key.match(line) or "expr" in line)
                    self.assertIn("expr", above, f"{name}: {old[at]}")

    def test_yaml_is_the_same(self):
        yaml = ruamel.yaml.YAML(typ="safe", pure=True)

        def without_queries(name):
            documents = list(yaml.load_all((FILES / name).read_text(encoding="utf-8-sig")))
            for document in filter(None, documents):
                for rule in (rule for group in document["groups"] or () for rule in group.get("rules", ())):
                    rule.pop("expr", None)
            return documents

        for name in NAMES:
            self.assertEqual(without_queries(f"{name}.yml"), without_queries(f"{name}.formatted.yml"))

    def test_width(self):
        path = self.file(file_of(TWO_LINES))
        self.assertIn(f"expr: '{TWO_LINES}'\n", run("format", "--width", 200, path).out)
        # The column of the query is the eleventh.
        at_limit = len(TWO_LINES) + 10
        self.assertEqual(run("format", "--check", "--width", at_limit, path).status, 0)
        self.assertEqual(run("format", "--check", "--width", at_limit - 1, path).status, 19)
        self.assertEqual(run("format", "--width", 0, path).status, 0)
        for wrong in ("-1", "x"):
            self.assertEqual(run("format", "--width", wrong, path).status, 64)
        for wrong in (("--width", 65_536), ("--indent", 17)):
            self.assertEqual(run("format", *wrong, path)[:2], (9, ""))
        self.assertEqual(run("format", "--style", "pretty", "--width", 65_536, path).status, 0)

    def test_width_of_lines(self):
        """A query of one line has the columns after its key, also in a block; the lines of another one have those after its indentation."""
        for style in "", "|-\n      ":
            for length in 84, 85, 88, 89:
                query = f"{'n' * 70} + {'m' * (length - 73)}"
                text = file_of("", style + query)
                out = run("format", "--width", 94, self.file(text)).out
                self.assertEqual(out == text, length == 84, length)
                self.assertEqual(run("format", "--check", "--width", 94, self.file(out)).status, 0, length)
        for length, lines in (88, 2), (89, 4):
            first = f"sum(rate({'n' * (length - 15)}[5m]))"
            out = run("format", "--width", 94, self.file(file_of(f"{first} / on (job) group_left () sum(up)"))).out
            self.assertEqual(out.count("\n") - RULE.count("\n") - 1, lines, out)
            self.assertEqual(f"      {first}\n" in out, lines == 2, out)

    def test_indentation(self):
        ran = run("format", "--width", 20, "--indent", 4, self.file(file_of("sum(aaaaaaaaa + bbbbbbbbbbbb)")))
        self.assertIn("\n          aaaaaaaaa\n", ran.out)

    def test_keep_spelling(self):
        """Numbers, strings and the order of matchers stay, and so does what a Prometheus reads otherwise."""
        path = self.file(file_of("", "|\n      absent(foo{b='1',  a=\"\\xe9\"}offset 60s)/1e3 # c\n"))
        self.assertEqual(run("format", path).status, 23)
        wanted = file_of("", "|\n      absent(foo{b='1',a=\"\\xe9\"} offset 60s) / 1e3 # c\n")
        self.assertEqual(run("format", "--keep-spelling", path), (0, wanted, ""))
        self.assertEqual(run("format", "--keep-spelling", "--style", "pretty", path).status, 64)
        self.assertEqual(run("format", "--keep-spelling", "--enforce", "a='b'", path).status, 64)

    def test_unprintable(self):
        for style in ('"a{b=\\"\\x01\\x85\\u2028\\"}+1"', '"a{b=\\"\\x01\\"}\\\n  + 1"'):
            text = run("format", self.file(file_of("", style))).out
            self.assertRegex(text, r'expr: "a\{b=\\"\\x01.*\\"\} \+ 1"\n')
        long = 'a{b=\\"\\x01\\"}+' + "b" * 100
        text = run(*PRETTY, self.file(file_of("", f'"{long}"'))).out
        self.assertIn('"  a{b=\\"\\x01\\"}\\n+\\n  b', text)
        self.assertEqual(run(*PRETTY, self.file(text)).out, text)

    def test_block_of_unprintable(self):
        path = self.file(RULE + '    expr: |  # c\n      a{b="\\x01"}\n      +1\n\n    for: 5m\n')
        self.assertEqual(run("format", path).out, RULE + '    expr: "a{b=\\"\\x01\\"} + 1"  # c\n\n    for: 5m\n')

    def test_final_line_feeds(self):
        """Line feeds at the end of a query that is laid out are left there."""
        for style in ('"up == 0\\n"', "|+\n      up == 0\n\n", ">\n      up == 0\n"):
            path = self.file(file_of("", style))
            self.assertEqual(run("format", "--check", path), (0, "", ""))

    def test_many_signs(self):
        query = "foo{a=\"" + "#" * 30_000 + "\"}"
        self.assertEqual(run(*PRETTY, "--check", self.file(file_of(query))).status, 0)
        self.assertIn("it has a comment", run(*PRETTY, self.file(f"groups: [{{rules: [{{expr: '{query} #'}}]}}]\n")).err)

    def test_comment_below(self):
        inside = RULE + "    expr: |\n        a+b\n      # farther in than its key\n"
        ran = run("format", self.file(inside))
        self.assertEqual((ran.status, ran.out), (0, inside))
        self.assertIn("a.yml:6:9: warning: left as it is: the comment below", ran.err)
        beside = RULE + "    expr: a+b\n\n      # farther in than its key\n"
        self.assertEqual(run("format", self.file(beside)).out, beside.replace("a+b", "a + b"))
        outside = RULE + "    expr: |\n        a+b\n     # not so far in\n"
        self.assertEqual(run("format", self.file(outside)).out, outside.replace("        a+b", "      a + b"))

    def test_not_read_back(self):
        """What a formatted file says is compared with what it said: here the block would be farther out than its key."""
        text = f"groups:\n- rules:\n  - ? expr\n    : {TWO_LINES}\n"
        path = self.file(text)
        for option in ("--write", "--check", "--diff"):
            ran = run(*PRETTY, option, path)
            self.assertEqual((ran.status, ran.out, path.read_text()), (12, "", text))
            self.assertEqual(ran.err, f"{path}: left as it is: formatted, it would not be read as the same\n")

    def test_comparison(self):
        """A text that would be another query, or would be read as one, is not written."""
        for wrong in (
            "expr: a + c",
            "expr: a + b  # c",
            "expr: |\n      a + b\n      # c",
            "expr: null",
            "expr: a + b\n    for: 5m",
            "expr: &x a + b",
            "expr: [a + b",
        ):
            with mock.patch.object(Scalar, "edit", lambda self, text, wrong=wrong: Edit(self.start - 6, self.end, wrong)):
                ran = run("format", self.file(RULE + "    expr: a+b\n    labels: {}\n"))
            harmless = wrong == "expr: a + b  # c"
            self.assertEqual((ran.status, "would not be read" in ran.err), (0, False) if harmless else (12, True), wrong)

    def test_no_line_end(self):
        path = self.file(RULE + f"    expr: {TWO_LINES}")
        text = run("format", path).out
        self.assertTrue(text.endswith("[5m]))"), text)
        diff = run("format", "--diff", path).out
        self.assertEqual(diff.count("\\ No newline at end of file\n"), 2)


class Diff(Folder):
    """`format --diff`."""

    def differences(self, text, name="a.yml"):
        """What the command prints for a file, and what `difflib` says of the file as it is formatted."""
        path = self.file(text, name)
        lines = [re.findall(r"[^\n]*\n|[^\n]+", it) for it in (text, run("format", path).out)]
        wanted = "".join(it if it.endswith("\n") else f"{it}\n\\ No newline at end of file\n" for it in difflib.unified_diff(*lines, str(path), str(path)))
        return run("format", "--diff", path).out, wanted if lines[1] else ""

    def test_as_of_the_whole_file(self):
        for folder in (FILES, ROOT / "examples/rules"):
            for path in sorted(folder.rglob("*.yml")):
                self.assertEqual(*self.differences(path.read_text(encoding="utf-8")))
        generator = random.Random(7)
        queries = ("a", "a+b", TWO_LINES, "sum(up)by(job)", "|\n      a +\n      # c\n      b", "|\n      sum(a)\n        by (b)\n\n")
        for _ in range(150):
            rules = [f"  - record: r{generator.randrange(9)}\n    expr: {generator.choice(queries)}".rstrip("\n") for _ in range(generator.randrange(1, 12))]
            text = "groups:\n- name: a\n  rules:\n" + "\n".join(rules) + generator.choice(("", "\n", "\n\n"))
            self.assertEqual(*self.differences(text), text)
        line = "groups: [{name: a, rules: [{record: a, expr: a+b}, {record: b, expr: b}, {record: c, expr: b+c}]}]"
        for text in (line, f"{line}\n", line.replace("rules: ", "rules:\n  ")):
            self.assertEqual(*self.differences(text), text)

    def test_many_lines(self):
        """What took a time that grew with the square of the lines: equal ones, and others."""
        for name in ("a", "a{}"):
            text = "groups:\n- name: a\n  rules:\n" + "".join(f"  - record: {name.format(n)}\n    expr: sum(up)by(job)\n" for n in range(9_900))
            begin = time.process_time()
            ran = run("format", "--diff", self.file(text))
            self.assertLess(time.process_time() - begin, 10)
            self.assertEqual((ran.status, ran.out.count("\n-    expr: "), ran.out.count("\n+    expr: "), ran.out.count("@@ -")), (19, 9_900, 9_900, 1))
        # a query whose lines are too many to be compared
        lines = "".join(f"        # {n % 7}\n" for n in range(2_000))
        path = self.file(file_of("", f"|\n      a+\n{lines}      b+c\n"))
        found = re.findall(r"(?m)^([-+ ])(.*\n)", run("format", "--diff", path).out)[2:]
        for text, signs in ((path.read_text(encoding="utf-8"), " -"), (run("format", path).out, " +")):
            self.assertIn("".join(line for sign, line in found if sign in signs), text)


class People(Folder):
    """`format`, whose style is `people`."""

    def formatted(self, query):
        path = self.file(file_of("", "|\n" + "".join(f"      {line}\n" for line in query.split("\n"))))
        return run("format", path)

    def test_comments(self):
        for query, wanted in (
            ("up  # c", "up # c"),
            ("#c\nup  ", "#c\nup"),
            ("# by job\nsum(a{b='1'} # one\n) by (job)", '# by job\nsum(\n  a{b="1"} # one\n) by (job)'),
            ("rate(a[5m] #c\noffset 1m)", "rate(\n  a[5m] #c\n    offset 1m\n)"),
        ):
            with self.subTest(query):
                ran = self.formatted(query)
                self.assertEqual(ran, (0, file_of("", "|\n" + "".join(f"      {line}\n" for line in wanted.split("\n"))), ""))
                self.assertEqual(run("format", "--check", self.file(ran.out)), (0, "", ""))

    def test_no_indentation_is_told(self):
        """No line before the others is farther in, so that the block need not say how far in it is."""
        text = run("format", self.file(file_of(TWO_LINES))).out
        self.assertIn("    expr: |-\n      sum by (job) (rate(errors", text)
        self.assertIn('\n      / sum by (job) (rate(requests_total{job="api"}[5m]))\n', text)
        self.assertEqual(run("format", "--check", self.file(text)), (0, "", ""))
        self.assertIn("expr: |2-\n", run(*PRETTY, self.file(text)).out)

    def test_in_braces(self):
        """A comment ends with its line, so that a query of several lines stays as it is where there are no blocks."""
        text = 'groups: [{name: a, rules: [{record: b, expr: "up{} # c"}, {record: c, expr: "up # c\\n+ 1"}, {record: d, expr: a+b}]}]\n'
        ran = run("format", self.file(text))
        self.assertEqual((ran.status, ran.out), (0, text.replace("a+b", "a + b")))
        self.assertEqual(ran.err.count("it has a comment, and has to stay on one line here"), 1)

    def test_enforced(self):
        ran = run("format", "--enforce", "a='b'", self.file(file_of("", "|\n      up # c\n")))
        self.assertEqual(ran.status, 2)
        self.assertIn("not enforced: it has a comment, which would be lost", ran.err)


class Comments(Folder):
    def test_kept(self):
        for query in (
            "up  # c",
            "up  #",
            "#c\nup  ",
            "sum(#)\nup ) ",
            'a{b="#"}  # "',
            "rate(a[5m] #c\noffset 1m)",
            '{#c\na="b"}or a',
            'a{b="\\"#"}#"',
            "a # #",
            "a{b=`#`} #`",
        ):
            with self.subTest(query):
                text = file_of("", "|\n" + "".join(f"      {line}\n" for line in query.split("\n")))
                ran = run(*PRETTY, self.file(text))
                self.assertEqual((ran.status, ran.out), (0, text))
                self.assertIn("a.yml:6:7: warning: left as it is: it has a comment", ran.err)
                self.assertEqual(run(*PRETTY, "--check", self.file(text)).status, 0)

    def test_in_strings(self):
        for query in (
            'a{b="#"}',
            "a{b='#'}",
            "a{b=`#`}",
            'a{b=~"[#-z]"}',
            'a{b=~"[!-#]"}',
            'a{b="\\"#"}',
            'count_values("#", a)',
            'a{"#"="b"}',
            'a{b=~"[#-:]"}',
        ):
            with self.subTest(query):
                text = file_of(query + " + 1  +  2")
                ran = run("format", self.file(text))
                self.assertEqual((ran.status, ran.err), (0, ""))
                self.assertNotEqual(ran.out, text)


class Places(Folder):
    def test_styles(self):
        for name, (lines, place, shown, mark) in PLACES.items():
            for line_end in ("\n", "\r\n", "\r"):
                with self.subTest(name, line_end=line_end):
                    path = self.file((RULE + lines + "\n").replace("\n", line_end))
                    ran = run("check", "--queries", path)
                    self.assertEqual(ran.status, 4)
                    self.assertEqual(ran.err.count(str(path)), 1, ran.err)
                    line, column = map(int, place.split(":"))
                    blank = re.sub(r"[^\t]", " ", shown[: column - 1])
                    self.assertTrue(ran.err.startswith(f"{path}:{line}:{column}: "), ran.err)
                    self.assertTrue(ran.err.endswith(f"\n{shown}\n{blank}{mark}\n"), ran.err)

    def test_byte_order_mark(self):
        path = self.file("\ufeff{groups: [{rules: [{expr: a b}]}]}")
        ran = run("check", "--queries", path)
        self.assertTrue(ran.err.startswith(f"{path}:1:29: "), ran.err)

    def test_long_lines(self):
        path = self.file(file_of("a + " * 100 + "b c"))
        shown = run("check", path).err.split("\n")
        self.assertLessEqual(max(map(len, shown[1:])), 160)
        self.assertEqual(shown[1][shown[2].index("^")], "c")

    def test_surrogates(self):
        path = self.file(file_of("", '"a{b=\\"\\ud800\\"}"'))
        self.assertIn(":5:18: half of a surrogate pair", run("check", path).err)
        self.assertEqual(run("format", path).status, 3)

    def test_other_spaces(self):
        """No-break spaces and form feeds are left to the library."""
        for style, place in (
            ("up\xa0", "5:13"),
            ("'up\xa0'", "5:14"),
            ("|\n      up\xa0", "6:9"),
            ('"up\\x85"', "5:14"),
            ('"up\\f+"', "5:17"),
        ):
            path = self.file(file_of("", style))
            self.assertTrue(run("check", path).err.startswith(f"{path}:{place}: "), run("check", path).err)
            self.assertEqual(run("format", path).status, 4)

    def test_escapes(self):
        """Each escape of YAML is followed."""
        escapes = [f"\\{character}" for character in '0abt\tnvfre "/\\N_LP'] + ["\\x41", "\\u00e9", "\\U0001F980"]
        text = RULE + "".join(f'  - expr: "a{escape} +"\n' for escape in escapes)
        document = rule_files.RuleFile(Source("a.yml", text.replace("  - alert: B\n", ""), ""))
        self.assertEqual((len(document.queries), document.faults), (len(escapes), []))
        for query, escape in zip(document.queries, escapes):
            offset = query.offsets[2]
            self.assertEqual(document.source.text[offset - len(escape) : offset + 2], f"{escape} +")

    def test_unread_scalars(self):
        # The reader of YAML takes U+2028 as a line end.
        path = self.file(RULE + "    expr: a\n      \u2028 + b\n")
        for command, status in (("check", 1), ("format", 2)):
            ran = run(command, path)
            self.assertEqual(ran.status, status)
            self.assertIn(f"{path}:5:11: the places of its characters cannot be told", ran.err)


class Checks(Folder):
    def test_summary(self):
        ran = run("check", "--queries", *(FILES / f"{name}.yml" for name in NAMES))
        self.assertEqual((ran.status, ran.err), (0, ""))
        self.assertEqual(
            [line.rsplit(": ", 1)[1] for line in ran.out.splitlines()],
            [f"{rules} rules, no errors" for rules in (10, 31, 4, 14)],
        )

    def test_shapes(self):
        for text, message in (
            ("- a\n", "1:1: the document is not a mapping"),
            ("a: b\n", "1:1: this is no rule file: it has no `groups`"),
            ("groups: 5\n", "1:9: `groups` is not a list"),
            ("groups: [5]\n", "1:10: a group is not a mapping"),
            ("groups: [{rules: 5}]\n", "1:18: `rules` is not a list"),
            ("groups: [{rules: [5]}]\n", "1:19: a rule is not a mapping"),
            ("groups: [{rules: [{alert: a}]}]\n", "1:19: a rule without `expr`"),
            ("groups: [{rules: [{expr: }]}]\n", "1:19: a rule without `expr`"),
            ("groups: [{rules: [{expr: null}]}]\n", "1:19: a rule without `expr`"),
            ("groups: [{rules: [{expr: !!str }]}]\n", "1:19: a rule without `expr`"),
            ("groups: [{rules: [{<<: {expr: }}]}]\n", "1:19: a rule without `expr`"),
            ("groups: [{rules: [{expr: [a]}]}]\n", "1:26: `expr` is not a text"),
            ("groups: [{rules: [{expr: !!binary YQ==}]}]\n", "1:26: `expr` is not a text"),
            ("groups: [{rules: [{expr: !a b}]}]\n", "1:26: `expr` is not a text"),
            ("groups: [{rules: [{expr: a, expr: b}]}]\n", "1:29: `expr` is there twice"),
        ):
            with self.subTest(text):
                path = self.file(text)
                ran = run("check", "--queries", path)
                self.assertEqual(ran.status, 1)
                self.assertTrue(ran.err.startswith(f"{path}:{message}\n"), ran.err)
                self.assertEqual(run("format", "--write", path).status, 2)
                self.assertEqual(path.read_text(), text)

    def test_nothing_to_check(self):
        for text in (
            "",
            "# a comment\n",
            "groups:\n",
            "groups: []\n",
            "groups: [{name: a}]\n",
            "groups: [{rules: }]\n",
            "---\n---\n",
        ):
            path = self.file(text)
            self.assertEqual(run("check", "--queries", path), (66, f"{path}: no rules, no errors\n", NO_QUERY), text)
            self.assertEqual(run("format", path)[:2], (0, text), text)

    def test_unreadable(self):
        for data, message in (
            (b"a: [1\n", "not YAML: "),
            (b"a: *b\n", ":1:4: not YAML: found undefined alias"),
            (b"a: \x01\n", ":1:4: not YAML: a character"),
            (b'a: "\\UFFFFFFFF"\n', "not YAML: "),
            (b"a: \xff\n", "not UTF-8 at byte 3"),
            (b"[" * 700, "nested too deeply"),
            (b"groups: [{rules: [&a {<<: &b {<<: *a}}]}]", "a mapping is merged into itself"),
            (b"groups: [{rules: [&a {<<: *a}]}]", "a mapping is merged into itself"),
            (aliases(1000, 1001).encode(), "its aliases make more than 1,000,000 rules of it"),
        ):
            path = self.file(data)
            for command in ("check", "format"):
                ran = run(command, path)
                self.assertEqual((ran.status, ran.out), (3 if b"\xff" in data else 2, ""), data)
                self.assertTrue(ran.err.startswith(str(path)), ran.err)
                self.assertIn(message, ran.err)
        self.assertEqual(run("check", self.folder / "none.yml").err, f"{self.folder}/none.yml: No such file or directory\n")
        self.assertEqual(run("check", self.folder)[:2], (2, ""))

    def test_merged_many_times(self):
        """Each mapping is looked at once, however often it is merged."""
        merges = [f"m{i}: &m{i} {{<<: [{', '.join([f'*m{i - 1}'] * 9)}]}}" for i in range(1, 60)]
        text = "\n".join(["m0: &m0 {a: b}", *merges, "groups: [{rules: [{<<: *m59}, {<<: *m59, expr: up}]}]\n"])
        ran = run("check", "--queries", self.file(text))
        self.assertEqual((ran.status, ran.out.split(": ")[1]), (1, "1 rule, 1 error\n"))
        self.assertIn("a rule without `expr`", ran.err)

    def test_aliases(self):
        self.assertEqual(run("check", "--queries", self.file(aliases(100, 100))).out.split(": ")[1], "10000 rules, no errors\n")

    def test_keys_twice(self):
        for text in ("groups: []\ngroups: []\n", "groups: [{rules: [], rules: []}]", "groups: [{rules: [{expr: up, expr: up}]}]"):
            ran = run("check", self.file(text))
            self.assertEqual((ran.status, ran.err.count("is there twice")), (1, 1), text)

    def test_many_errors(self):
        path = self.file(file_of("up ==") + "  - alert: B\n    expr: up ==\n" * 3000)
        ran = run("check", path)
        self.assertEqual(ran.out, f"{path}: 3001 rules, 3001 errors\n")
        self.assertIn(f"{path}:6005:16: ", ran.err)

    def test_what_a_terminal_obeys(self):
        ran = run("check", self.file('groups: [{rules: [{expr: "\\e]0;x\\a("}]}]\n'))
        self.assertIn(r": unexpected character: '\x1b'", ran.err)
        self.assertNotIn("\x1b", ran.err)
        ran = run("check", self.file("groups: [{rules: [{expr: 'a\u202e (('}]}]\n"))
        self.assertTrue(ran.err.endswith("\ngroups: [{rules: [{expr: 'a\\u{202e} (('}]}]\n" + " " * 27 + "^~~~~~~~\n"), ran.err)

    def test_statuses(self):
        fine, wrong = self.file(file_of("up == 0"), "fine.yml"), self.file(file_of("up == "), "wrong.yml")
        messy, none = self.file(file_of("up==0"), "messy.yml"), self.folder / "none.yml"
        for status, commands in (
            (0, (("check", fine, messy), ("format", "--check", fine), ("format", messy), ("format", "--diff", fine))),
            (4, (("check", fine, wrong), ("format", "--check", messy, wrong), ("format", wrong))),
            (19, (("format", "--check", fine, messy), ("format", "--diff", messy))),
            (2, (("check", none, wrong), ("check", wrong, none), ("format", "--write", none))),
            (64, (("format", "--check", "--write", fine), ("check", "--variable", "a", fine), (), ("other",))),
            # (standard input is empty here)
            (66, (("check",),)),
        ):
            for arguments in commands:
                self.assertEqual(run(*arguments).status, status, arguments)
        self.assertEqual(run("format", "--check", fine, messy).out, f"{messy}\n")

    def test_program(self):
        wrong = self.file(file_of("up =="))
        for arguments, status in ((["check", wrong], 4), (["--help"], 0), (["format", wrong], 4), (["check", "--help"], 0)):
            command = [sys.executable, "-m", "promql", *arguments]
            ran = subprocess.run(command, stdout=subprocess.PIPE, stderr=subprocess.PIPE, check=False)
            self.assertEqual(ran.returncode, status, ran)


class Writing(Folder):
    TEXT = file_of("up==0")

    def assert_alone(self, *names):
        self.assertEqual(sorted(path.name for path in self.folder.iterdir()), sorted(names))

    def test_write(self):
        path = self.file(self.TEXT)
        path.chmod(0o640)
        self.assertEqual(run("format", "--write", path), (0, "", ""))
        self.assertEqual(path.read_text(), file_of("up == 0"))
        self.assertEqual(stat.S_IMODE(path.stat().st_mode), 0o640)
        self.assert_alone("a.yml")

    @unittest.skipUnless(os.geteuid() == 0, "only root may give files away")
    def test_owner(self):
        path = self.file(self.TEXT)
        os.chown(path, 1, 2)
        self.assertEqual(run("format", "--write", path).status, 0)
        self.assertEqual((path.stat().st_uid, path.stat().st_gid, path.read_text()), (1, 2, file_of("up == 0")))

    def test_unchanged_is_not_written(self):
        path = self.file(file_of("up == 0"))
        before = path.stat()
        with mock.patch("os.replace", side_effect=AssertionError):
            self.assertEqual(run("format", "--write", path).status, 0)
        self.assertEqual((path.stat().st_ino, path.stat().st_mtime_ns), (before.st_ino, before.st_mtime_ns))

    def test_link(self):
        path, link = self.file(self.TEXT), self.folder / "link.yml"
        link.symlink_to("a.yml")
        self.assertEqual(run("format", "--write", link).status, 0)
        self.assertTrue(link.is_symlink())
        self.assertEqual(path.read_text(), file_of("up == 0"))
        self.assert_alone("a.yml", "link.yml")

    def test_errors(self):
        path = self.file(self.TEXT)
        for call in ("os.replace", "os.fsync", "os.fchmod", "tempfile.mkstemp"):
            with mock.patch(call, side_effect=OSError(28, "No space left on device")):
                ran = run("format", "--write", path)
            self.assertEqual((ran.status, ran.err), (5, f"{path}: No space left on device\n"))
            self.assertEqual(path.read_text(), self.TEXT)
            self.assert_alone("a.yml")

    def test_changed_meanwhile(self):
        path, other = self.file(self.TEXT), file_of("up==1")
        real = os.fsync

        def change(descriptor):
            path.write_text(other)
            real(descriptor)

        with mock.patch("os.fsync", change):
            ran = run("format", "--write", path)
        self.assertEqual((ran.status, ran.err), (2, f"{path}: left as it is: it was changed meanwhile\n"))
        self.assertEqual(path.read_text(), other)
        self.assert_alone("a.yml")

    def test_two_names(self):
        path, other = self.file(self.TEXT), self.folder / "b.yml"
        os.link(path, other)
        ran = run("format", "--write", path)
        self.assertEqual((ran.status, ran.err), (2, f"{path}: left as it is: it has 1 other name, which would keep the old text\n"))
        self.assertEqual((path.read_text(), other.read_text()), (self.TEXT, self.TEXT))
        self.assert_alone("a.yml", "b.yml")

    def test_no_regular_file(self):
        path = self.folder / "pipe.yml"
        os.mkfifo(path)
        # (so that there is a reader for what is written before each run)
        reader = os.open(path, os.O_RDONLY | os.O_NONBLOCK)
        self.addCleanup(os.close, reader)
        for command in (("check",), ("format", "--check"), ("format", "--write")):
            path.write_text(self.TEXT)
            ran = run(*command, path)
            self.assertEqual(ran.status, {"check": 0, "--check": 19, "--write": 2}[command[-1]], ran)
        self.assertEqual(ran.err, f"{path}: left as it is: it is no regular file\n")
        self.assertTrue(stat.S_ISFIFO(path.stat().st_mode))

    def test_attributes(self):
        path = self.file(self.TEXT)
        try:
            os.setxattr(path, "user.origin", b"shop")
        except OSError:
            self.skipTest("the file system has no attributes")
        self.assertEqual(run("format", "--write", path).status, 0)
        self.assertEqual((os.getxattr(path, "user.origin"), path.read_text()), (b"shop", file_of("up == 0")))

    def test_long_name(self):
        path = self.file(self.TEXT, "a" * 250 + ".yml")
        self.assertEqual(run("format", "--write", path), (0, "", ""))
        self.assertEqual(path.read_text(), file_of("up == 0"))

    def test_output_that_ends(self):
        many = self.file(file_of("up ==") + "  - alert: B\n    expr: up==\n" * 3000, "many.yml")
        for command, status, said in (
            (f"check {many} 2>&1 | head -n 1 >/dev/null; exit ${{PIPESTATUS[0]}}", 128 + signal.SIGPIPE, ""),
            (f"check {self.file(self.TEXT)} >/dev/full", 5, "standard output: No space left on device\n"),
            (f"format {self.file(self.TEXT)} >/dev/full", 5, f"{self.folder}/a.yml: No space left on device\n"),
            (f"check {self.file(self.TEXT)} >&-", 5, "standard output: Bad file descriptor\n"),
            (f"format {self.file(self.TEXT)} >&-", 5, "standard output: Bad file descriptor\n"),
            (f"check {many} 2>/dev/full", 5, ""),
            (f"format {many} 2>/dev/full", 5, ""),
            (f"format {many} 2>&-", 4, ""),
        ):
            ran = subprocess.run(["bash", "-c", f"{sys.executable} -m promql {command}"], capture_output=True, check=False)
            self.assertEqual((ran.returncode, ran.stdout, ran.stderr.decode()), (status, b"", said), command)

    def test_interrupted(self):
        path = self.file(self.TEXT)
        for call in ("os.replace", "os.fsync"):
            with mock.patch(call, side_effect=KeyboardInterrupt), self.assertRaises(KeyboardInterrupt):
                run("format", "--write", path)
            self.assertEqual(path.read_text(), self.TEXT)
            self.assert_alone("a.yml")

    def test_half_written(self):
        path = self.file(self.TEXT)
        real = open

        def broken(file, mode="r", **options):
            opened = real(file, mode, **options)
            if mode == "wb":
                opened.write(b"half")
                opened.close()
                raise OSError(5, "Input/output error")
            return opened

        with mock.patch("builtins.open", broken):
            ran = run("format", "--write", path)
        self.assertEqual((ran.status, ran.err), (5, f"{path}: Input/output error\n"))
        self.assertEqual(path.read_text(), self.TEXT)
        self.assert_alone("a.yml")

    def test_killed(self):
        """A process that ends at once before the file is renamed: the file is as it was."""
        path = self.file(self.TEXT)
        script = "import os, sys; os.replace = lambda *_: os._exit(9); from promql.__main__ import main; main(sys.argv[1:])"
        command = [sys.executable, "-c", script, "format", "--write", path]
        self.assertEqual(subprocess.run(command, check=False).returncode, 9)
        self.assertEqual(path.read_text(), self.TEXT)

    def test_read_only(self):
        path = self.file(self.TEXT)
        with mock.patch("os.access", return_value=False):
            ran = run("format", "--write", path)
        self.assertEqual((ran.status, ran.err), (5, f"{path}: Permission denied\n"))
        self.assertEqual(path.read_text(), self.TEXT)

    def test_standard_input(self):
        text = self.TEXT.replace("\n", "\r\n").encode()
        wanted = file_of("up == 0").replace("\n", "\r\n")
        for option in ((), ("--write",)):
            self.assertEqual(run("format", *option, "-", stdin=text)[:2], (0, wanted))
        self.assertEqual(run("format", "--check", "-", stdin=text)[:2], (19, "<stdin>\n"))
        self.assertEqual(run("check", "-", stdin=text)[:2], (0, "<stdin>: 1 rule, no errors\n"))
        self.assertIn("<stdin>:5:17: ", run("check", "-", stdin=file_of("up ==").encode()).err)

    def test_diff(self):
        path = self.file(self.TEXT)
        self.assertEqual(
            run("format", "--diff", path).out,
            f"--- {path}\n+++ {path}\n@@ -2,4 +2,4 @@\n - name: a\n   rules:\n   - alert: B\n"
            "-    expr: 'up==0'\n+    expr: 'up == 0'\n",
        )
        self.assertEqual(path.read_text(), self.TEXT)

    def test_rejected_is_left(self):
        text = file_of("up==0") + "  - alert: C\n    expr: up ==\n"
        path = self.file(text)
        ran = run("format", "--write", path)
        self.assertEqual((ran.status, ran.out, path.read_text()), (4, "", text))
        self.assertIn(f"{path}:7:16: {NO_OPERAND}\n", ran.err)


class Enforcing(Folder):
    def test_enforced(self):
        path = self.file(file_of("sum(rate(foo[5m]))/bar"))
        ran = run("format", "--enforce", 'namespace="team-a"', path)
        self.assertEqual((ran.status, ran.err), (0, ""))
        text = """sum(rate(foo{namespace="team-a"}[5m])) / bar{namespace="team-a"}"""
        self.assertEqual(ran.out, file_of(text))
        self.assertEqual(run("format", "--check", "--enforce", 'namespace="team-a"', self.file(ran.out)).status, 0)
        self.assertEqual(run("format", "--enforce", "namespace", path).status, 11)

    def test_no_matcher(self):
        """What is wrong with a text that is no matcher is said, and where."""
        path = self.file(file_of("up"))
        for matcher, said in (
            ("a=b", '1:3: unexpected identifier "b", expected string'),
            ('{a="b"}', "1:1: unexpected left brace '{' inside braces"),
            ('a="b",c="d"', "1:6: it is not one matcher"),
            ('a="b"}', '1:6: unexpected "}", a matcher has no braces'),
            ('a=~"("', "1:4: illegal regex for ("),
            ("a", '1:2: unexpected end, expected "=", "=~", "!=" or "!~"'),
            ("a\x1b", "1:2: unexpected character inside braces: '\\x1b'"),
            ("", "1:1: it is empty"),
        ):
            ran = run("format", "--enforce", matcher, path)
            self.assertEqual(ran, (11, "", f"--enforce: not a matcher: {said}\n"), matcher)
        said = "a matcher of the metric name cannot be enforced"
        self.assertEqual(run("format", "--enforce", '__name__="a"', path), (11, "", f"--enforce: {said}\n"))

    def test_by_a_function(self):
        """Which queries are given to the function, and what is done with its texts."""

        def enforce(query, matcher):
            if matcher == "none":
                raise ValueError("no matcher: none")
            return promql.canonical(query).replace("foo", f"foo{{{matcher}}}")

        with mock.patch.object(promql, "enforce", enforce):
            path = self.file(file_of("sum(foo)") + "  - alert: C\n    expr: |\n      foo/2\n")
            ran = run("format", "--enforce", 'a="b"', path)
            self.assertEqual((ran.status, ran.err), (0, ""))
            self.assertEqual(ran.out, file_of('sum(foo{a="b"})') + '  - alert: C\n    expr: |\n      foo{a="b"} / 2\n')
            self.assertEqual(run("format", "--enforce", "none", path), (2, "", "--enforce: no matcher: none\n"))
            for left in ("    expr: |\n      foo  # c\n", "    expr: &x foo\n    labels: {a: *x}\n"):
                text = RULE + left
                path = self.file(text)
                ran = run("format", "--enforce", 'a="b"', "--write", path)
                self.assertEqual((ran.status, path.read_text()), (2, text))
                self.assertIn("not enforced: ", ran.err)


class Page(Folder):
    def test_commands(self):
        """The commands of docs/guide/rule-files.md print what it shows."""
        page = (ROOT / "docs/guide/rule-files.md").read_text(encoding="utf-8")
        for name, text in re.findall(r"`(\w+\.yml)`:\n\n```yaml\n(.*?)^```$", page, re.M | re.S):
            self.file(text, name)
        sessions = re.findall(r"^```sh\n\$ promql-rules (.*?)\n(.*?)^```$", page, re.M | re.S)
        self.assertEqual(len(sessions), 6)
        for arguments, wanted in sessions:
            command = ["sh", "-c", f'exec "$0" -m promql {arguments}', sys.executable]
            ran = subprocess.run(command, cwd=self.folder, stdout=subprocess.PIPE, stderr=subprocess.STDOUT, check=False)
            self.assertEqual(ran.stdout.decode(), wanted)


class Random(Folder):
    def setUp(self):
        super().setUp()
        texts = [
            line.split("\t")
            for path in sorted((ROOT / "rows").glob("*.tsv"))
            for line in path.read_text(encoding="utf-8").split("\n")
        ]
        queries = {row[1] for row in texts if row[0] == "line" and len(row) > 3 and len(row[1]) < 400 and row[1][0] not in '"='}
        queries |= set((ROOT / "bench" / "queries" / "stdin").read_text().split("\n")) - {""}
        # (a number of a length of time is printed as a duration, which may be one that the target rejects)
        self.accepted = sorted(it for it in queries if "#" not in it and accepts(it) and accepts(promql.canonical(it)))
        self.rejected = sorted(query for query in queries if not accepts(query))
        self.generator = random.Random(11)

    def test_places(self):
        """The errors of rejected queries, in each style."""
        tried = dict.fromkeys(STYLES, 0)
        for query in self.generator.sample(self.rejected, min(2 * RANDOM, len(self.rejected))):
            with self.assertRaises(promql.QueryError) as raised:
                promql.check(query.rstrip())
            for style in STYLES:
                written = write(self.generator, query, style, 6)
                if written is None:
                    continue
                text, offsets = f"{RULE}    expr: {written.text}\n    for: 5m\n", written.offsets
                document = rule_files.RuleFile(Source("a.yml", text, ""))
                self.assertEqual([found.text for found in document.queries], [query.rstrip()], text)
                fault = document.queries[0].rejected(raised.exception)
                if raised.exception.start < len(query.rstrip()):
                    self.assertEqual(fault.start, len(RULE) + 10 + offsets[raised.exception.start], text)
                tried[style] += 1
        self.assertGreater(min(tried.values()), 0, tried)

    def test_formatting(self):
        """Rule files of accepted queries: what is changed, and that a second time nothing is."""
        for _ in range(RANDOM):
            queries = [self.query() for _ in range(self.generator.randrange(1, 12))]
            text, frame = rule_file(self.generator, queries)
            with self.subTest(text):
                ran = run("format", self.file(text))
                self.assertEqual((ran.status, ran.err), (0, ""))
                values = query_values(ran.out)
                self.assertEqual([promql.canonical(value) for value in values], [promql.canonical(query) for query in queries])
                self.assertNotIn("#", "".join(values))
                self.assert_frame(ran.out, frame)
                self.assertEqual(run("format", "--check", self.file(ran.out)), (0, "", ""))

    def query(self):
        query = self.generator.choice(self.accepted)
        return promql.pretty(query, width=self.generator.choice((0, 20, 60, 1000)))

    def assert_frame(self, text, frame):
        """The parts of the file around the queries are there, in their order, with nothing but queries between."""
        at = 0
        for part in frame:
            found = text.find(part, at)
            self.assertGreaterEqual(found, at, (part, text))
            at = found + len(part)
        self.assertTrue(text.startswith(frame[0]) and text.endswith(frame[-1]), text)


def accepts(query):
    try:
        promql.check(query)
    except promql.QueryError:
        return False
    return True


def query_values(text):
    document = ruamel.yaml.YAML(typ="safe", pure=True).compose(text)
    rules = [rule for group in value_of(document, "groups").value for rule in value_of(group, "rules").value]
    return [value_of(rule, "expr").value for rule in rules]


def value_of(mapping, key):
    return next(value for name, value in mapping.value if name.value == key)


if __name__ == "__main__":
    unittest.main()
