"""Tests of the two readers of YAML, and of several processes: what one says, the other one says as well."""

import multiprocessing
import os
import random
import re
import time
import unittest
from argparse import Namespace
from unittest import mock

import test_rule_files
from command_line import run
from promql import jobs, rule_files, yaml_events
from promql.documents import Status, Target
from promql.exact_yaml import ExactYaml
from promql.files import FileError, Source
from promql.jobs import Report, work_on
from promql.quick_yaml import QuickYaml, Unclear
from test_rule_files import FILES, NAMES, PLACES, RULE, Folder, file_of
from written import rule_file

try:
    from yaml import CSafeLoader  # noqa: F401
except ImportError as error:
    raise unittest.SkipTest("there is no PyYAML with libyaml here") from error

# How many texts are made at random.
RANDOM = int(os.environ.get("PROMQL_YAML_TEXTS", "60"))
PIECES = (
    "a", "b c", "expr", 'up{job="x"}', " ", "  ", "\n", "\n  ", "\n    ", "\n- ", "\n  - ", ": ", ":", "- ", "? ", "[", "]",
    "{", "}", ", ", ",", '"', "'", "\\", "\\n", '\\"', "''", "#", " #c", "&x ", "*x", "|", ">", "|-", "|2", ">+", "|+\n ",
    "\r\n", "\r", "---\n", "...\n", "<<: ", "~", "null", "%", "@", "`", "!", "é", "🦀", "sum(a)", "=", "!=", "\\x41", "\\\n",
    "\n\n", "\t", "yes", "{a: b}", "a\tb", " # c\td", "\n # c\t", "!!str ", "!!int ", "!!null", "!!seq\n", "!!map ", "!a ", "!!set ",
)  # fmt: skip
# What the files of the tests have that is left to the exact reader.
LEFT = re.compile(r"!!str &|^\.\.\.", re.M)
# Texts that libyaml and ruamel.yaml take otherwise, or that only one of them takes.
UNUSUAL = {
    "a TAB": "a:\tb\n",
    "a line end of Unicode": "a: b\n  \u2028 c\n",
    "a control character": "a: \x01\n",
    "a mark of byte order within": "a: \ufeffb\n",
    "a directive": "%YAML 1.1\n---\na: b\n",
    "the end of a document": "a: b\n...\n...\n",
    "a comment at once after the sign of a block": "a: |#c\n  b\n",
    "a tag of another kind": "a: !b c\n",
    "a tag before an anchor": "a: !!str &b c\n",
    "a TAB before a comment": "a: b\t# c\n",
    "a TAB in a plain scalar": "a: b\tc\n",
    "a TAB at the begin of a line": "a: |\n  \tb\n",
    "a TAB at the end of a line": "a: |\n  b\t\n",
    "a TAB beside the sign of a block": "a: |\t\n  b\n",
    "a TAB in a comment beside the sign of a block": "a: | # b\tc\n  d\n",
    "a TAB after a backslash": '"a\\\tb"\n',
    "a second directive": "%YAML 1.2\n--- # a\n...\n",
    "a value of YAML 1.1": "a: =\n",
    "an anchor with a colon": "a: &b: c\nd: e\n",
    "an alias with a colon": "? *b: c\n: d\n",
    "an alias of nothing": "a: *b\n",
    "a block that is the document": "|\n#a\n",
    "no YAML": "a: [b\n",
    "101 lists in lists": "- " * 101 + "a\n",
    "200,000 brackets": "[" * 200_000,
}

# Texts with what is rare, which the quick reader takes.
TAKEN = {
    "TABs in comments": "# a\tb\n#\t\na: b # c\td\te\n",
    "TABs in a comment between lines": "a:\r\n  # b\t\r\n  - c\r\n",
    "TABs in quotes": "- 'a\tb \t c'\n- \"a\tb\n   d\te\"\n",
    "TABs in blocks": "- |\n  a\tb\n\n  c \td\n- >-\n  a\tb\n   c\td\n",
    "a directive": "%YAML 1.2\n---\na: b\n",
    "tags": "!!map\na: !!seq\n- !!str 1\n- !!int '1'\n- !!null b\n- !!float\n",
    "a query with a tag": RULE + "  - expr: !!str up\n  - expr: !!str |\n      up\n      + b\n",
    "a query with an anchor and a tag": RULE + "  - expr: &a !!str 'up'\n  - expr: *a\n",
}


def exactly(cases):
    """The same tests where there is no quick reader."""

    class Exactly(cases):
        def setUp(self):
            super().setUp()
            patched = mock.patch.object(yaml_events, "_reader", lambda: None)
            patched.start()
            self.addCleanup(patched.stop)

    Exactly.__name__ = Exactly.__qualname__ = f"{cases.__name__}Exactly"
    return Exactly


for name in ("Formatted", "Comments", "Places", "Checks", "Enforcing", "Random"):
    globals()[f"{name}Exactly"] = exactly(getattr(test_rule_files, name))


def flat(roots):
    """Each node of the documents with what it has, and a number for what comes again; an empty one has no place of its own."""
    numbers, found, todo = {}, [], list(reversed(roots))
    while todo:
        node = todo.pop()
        if id(node) in numbers:
            found.append(numbers[id(node)])
            continue
        numbers[id(node)] = len(numbers)
        is_scalar = node.is_scalar()
        place = () if node.is_plain("") else (node.start, node.column, node.end if is_scalar else None)
        value = node.value if is_scalar else len(node.value)
        found.append((node.kind, value, node.style, node.anchor, place, node.is_null(), node.is_text()))
        todo += reversed(node.value if node.kind == "sequence" else sum(node.value, ()) if node.kind == "mapping" else ())
    return found


def readers():
    """What calls libyaml: PyYAML, and the extension where it finds one."""
    return list({yaml_events._by_pyyaml, yaml_events._reader()})


def outcome(text, most_nodes=50_000):
    """What is read of a text, or where it is unclear, and why."""
    try:
        quick = QuickYaml(Source("a.yml", text, ""), most_nodes)
    except Unclear as unclear:
        return unclear.at, unclear.why
    except FileError as error:
        return error.span, str(error)
    tags = [(node.tag, node.end, node.in_flow) for node in nodes_of(quick.roots)]
    return flat(quick.roots), tags, quick.has_aliases, quick.nodes_left


def nodes_of(roots):
    """The nodes of the documents, each once."""
    found, todo = {}, list(roots)
    while todo:
        node = todo.pop()
        if found.setdefault(id(node), node) is node and not node.is_scalar():
            todo += node.value if node.kind == "sequence" else sum(node.value, ())
    return found.values()


def parts(source, reader):
    """The queries that a reader finds, with all their places, and the faults; or the error."""
    try:
        found = rule_files._Parts(source, reader(source))
    except FileError as error:
        return str(error)
    return found.queries, sorted(found.faults), found.rules

# The options of a command with two processes.
OPTIONS = Namespace(jobs=2, color="never", output="text", config=None, strict=False, fail_on=None, verbose=False, command="check")


def quick_yaml_takes(text):
    try:
        QuickYaml(Source("a.yml", text, ""))
    except Unclear:
        return False
    return True


class Readers(unittest.TestCase):
    def compare(self, text):
        """Whether the quick reader takes a text; it then is read as the exact one reads it."""
        source = Source("a.yml", text, "")
        self.compare_readers(text)
        try:
            quick = QuickYaml(source)
            found = parts(source, QuickYaml)
        except Unclear:
            return False
        self.assertEqual(flat(quick.roots), flat(ExactYaml(source).roots), repr(text))
        self.assertEqual(found, parts(source, ExactYaml), repr(text))
        return True

    def compare_readers(self, text, most_nodes=50_000):
        """The extension and PyYAML give the same nodes, and take the same texts."""
        found = []
        for reader in readers():
            with mock.patch.object(yaml_events, "_reader", lambda: reader):
                found.append(outcome(text, most_nodes))
        self.assertEqual(found[:1] * len(found), found, repr(text)[:1_000])

    def test_bounds(self):
        for text in (*TAKEN.values(), RULE + PLACES["plain"][0]):
            for most in range(20):
                self.compare_readers(text, most)
        for text in ("- a\n" * 60_000, "---\n" * 60_000, "\n" * 10_000_000, "[" * 101 + "]" * 101, "- " * 100 + "a", "'a", "a\0", "a\ud800", ""):
            self.compare_readers(text)

    def test_files(self):
        for name in NAMES:
            for end in ("", ".formatted"):
                data = (FILES / f"{name}{end}.yml").read_bytes().decode("utf-8-sig")
                self.assertEqual(self.compare(data), not LEFT.search(data), name)

    def test_places(self):
        for name, (lines, *_) in PLACES.items():
            for line_end in ("\n", "\r\n", "\r"):
                text = (RULE + lines + "\n").replace("\n", line_end)
                self.assertEqual(self.compare(text), not LEFT.search(text), name)

    def test_unusual(self):
        for name, text in UNUSUAL.items():
            self.assertFalse(self.compare(text), name)

    def test_rare(self):
        for name, text in TAKEN.items():
            self.assertTrue(self.compare(text), name)

    def test_many_tabs(self):
        """Lines and comments with many TABs cost no more than others."""
        for text in ("#" + "a\t" * 200_000, "#\t\n" * 200_000, "#\t\r" * 200_000, "a: '" + "a\t" * 200_000 + "'", "a" + "\t " * 200_000):
            begin = time.process_time()
            self.assertIn(quick_yaml_takes(text), (True, False))
            self.assertLess(time.process_time() - begin, 5, text[:10])

    def test_at_random(self):
        """Texts of pieces of YAML, alone and as the value of a rule."""
        generator, taken = random.Random(3), 0
        for number in range(40 * RANDOM):
            text = "".join(generator.choice(PIECES) for _ in range(generator.randrange(1, 16)))
            taken += self.compare("groups:\n- rules:\n  - expr: " + text if number % 2 else text)
        self.assertGreater(taken, 5 * RANDOM)

    def test_rule_files_at_random(self):
        """Rule files, and the same with some characters changed."""
        generator, taken = random.Random(4), 0
        queries = (test_rule_files.ROOT / "bench" / "queries" / "queries.txt").read_text(encoding="utf-8").splitlines()
        for _ in range(RANDOM):
            text = re.sub(r"!!str |\t", "", rule_file(generator, generator.sample(queries, 3))[0])
            self.assertTrue(self.compare(text), text)
            for _ in range(3):
                at = generator.randrange(len(text))
                taken += self.compare(text[:at] + generator.choice((*PIECES, "")) + text[at + generator.randrange(3) :])
        self.assertGreater(taken, RANDOM // 2)


class WithoutLibyaml(Folder):
    def test_same_answers(self):
        path = self.file(file_of("up=="))
        quick = run("check", path)
        with mock.patch.object(yaml_events, "_reader", lambda: None):
            self.assertEqual(run("check", path), quick)

    def test_unclear_after_formatting(self):
        """Where only the new text is unclear, both are read exactly."""
        path = self.file(file_of("up==0"))
        reader = once(QuickYaml)
        with mock.patch.object(rule_files, "QuickYaml", reader), mock.patch.object(rule_files, "quick_yaml", reader):
            self.assertEqual(run("format", path)[:2], (0, file_of("up == 0")))


def once(reader):
    """This reader, which takes one text and then no other one."""
    taken = []

    class Once(reader):
        def __init__(self, source, most_nodes):
            if taken:
                raise Unclear
            taken.append(source)
            super().__init__(source, most_nodes)

    return Once


class Jobs(Folder):
    def files(self, count):
        """So many files: of each three one is fine, one is messy and one is rejected."""
        texts = ("up == 0", "up==0", "up ==")
        return [self.file(file_of(texts[number % 3]), f"{number}.yml") for number in range(count)]

    def test_same_as_one(self):
        names = [*self.files(20), self.folder / "none.yml"]
        for command in (("check",), ("format",), ("format", "--check"), ("format", "--diff")):
            alone = run(*command, *names)
            for count in (2, 3, 21, 200):
                self.assertEqual(run(*command, "--jobs", count, *names), alone, (command, count))

    def test_as_many_as_files(self):
        """Without an option so many processes share the files as there are hundreds of them, and one more, but `lint` is one."""
        names, few = self.files(230), self.files(99)
        with mock.patch.object(os, "sched_getaffinity", lambda process: {*range(self.processors)}), mock.patch.object(jobs, "_in_processes") as shared:
            shared.side_effect = lambda targets, work, count: map(work, targets)
            for self.processors, wanted in ((1, []), (2, [2]), (64, [3])):
                for command in (("check",), ("format", "--check")):
                    shared.reset_mock()
                    run(*command, *names)
                    self.assertEqual([call.args[2] for call in shared.call_args_list], wanted, command)
            shared.reset_mock()
            run("check", *few)
            run("lint", *names)
            shared.assert_not_called()
        for command in (("check",), ("format", "--check")):
            self.assertEqual(run(*command, *names), run(*command, "--jobs", "1", *names))

    def test_write(self):
        names = self.files(20)
        self.assertEqual(run("format", "--write", "--jobs", 3, *names).status, 4)
        wanted = [file_of(("up == 0", "up == 0", "up ==")[number % 3]) for number in range(20)]
        self.assertEqual([path.read_text() for path in names], wanted)

    def test_twice(self):
        """A file that is there twice, by a link as well, is formatted as if it were formatted again."""
        path, link = self.file(file_of("up==0")), self.folder / "link.yml"
        link.symlink_to(path)
        self.assertEqual(run("format", "--write", "--jobs", 3, path, path, link), (0, "", ""))

    def test_standard_input(self):
        path = self.file(file_of("up == 0"))
        ran = run("check", "--jobs", 2, path, "-", stdin=file_of("up").encode())
        self.assertEqual(ran, (0, f"{path}: 1 rule, no errors\n<stdin>: 1 rule, no errors\n", ""))

    def test_a_process_that_ends(self):
        def work(_, target):
            if target.name == "b":
                os._exit(9)
            return Report(Status.FINE, f"{target.name}\n".encode(), [])

        with mock.patch.object(Report, "put_out", lambda report, with_colors: said.append((report.out, *(it.text for it in report.messages)))):
            said = []
            self.assertEqual(work_on([Target(name) for name in "abcd"], work, OPTIONS), Status.FAILED)
        ended = "the process that had this file ended"
        self.assertEqual(said, [(b"a\n",), (b"", f"b: {ended}"), (b"c\n",), (b"", f"d: {ended}")])
        for process in multiprocessing.active_children():
            process.join(10)
        self.assertEqual(multiprocessing.active_children(), [])

    def test_options(self):
        for wrong in ("0", "-1", "x", "1000", ""):
            self.assertEqual(run("check", "--jobs", wrong, self.folder / "a.yml").status, 64)


if __name__ == "__main__":
    unittest.main()
