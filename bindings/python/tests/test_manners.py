"""Tests of what all subcommands of `promql-rules` have in common, as a table: each of them by each point."""

import contextlib
import importlib.util
import io
import os
import pty
import subprocess
import sys
import tempfile
import time
import unittest
from pathlib import Path
from unittest import mock

import promql
from command_line import run
from promql import terminal as people
from promql.__main__ import COMMANDS, main

try:
    import ruamel.yaml  # noqa: F401
except ImportError as error:
    raise unittest.SkipTest("there is no ruamel.yaml here") from error

PACKAGE = Path(promql.__file__).resolve().parents[1]
ENVIRONMENT = {**os.environ, "PYTHONPATH": os.pathsep.join([str(PACKAGE), *filter(None, [os.environ.get("PYTHONPATH")])])}
HAS_TOML = any(map(importlib.util.find_spec, ("tomllib", "tomli")))
RULE = "groups:\n- name: a\n  rules:\n  - alert: B\n    expr: "
FINE, WRONG, MESSY = RULE + "up == 0\n", RULE + "up ==\n", RULE + "up==0\n"
# The subcommands over files, and others with the words that they need.
OVER_FILES = (("check",), ("format", "--check"), ("lint",), ("metrics",))
OTHERS = (("lsp",), ("serve",), ("completion", "bash"))
COMMAND_NAMES = {words[0] for words in OVER_FILES + OTHERS}
# What is wrong with the arguments of each, and what is said of it.
WRONG_WORDS = (
    (("check", "--colr", "never", "a.yml"), "no option is called --colr: did you mean --color?"),
    (("check", "--max-lenn=5", "a.yml"), "no option is called --max-lenn: did you mean --max-len?"),
    (("format", "--wdth", "5", "a.yml"), "no option is called --wdth: did you mean --width?"),
    (("format", "--keep-speling", "a.yml"), "no option is called --keep-speling: did you mean --keep-spelling?"),
    (("format", "--style", "peple", "a.yml"), "argument --style: 'peple' is none of people, pretty: did you mean people?"),
    (("lint", "--selekt", "P1"), "no option is called --selekt: did you mean --select?"),
    (("lint", "--jobs=x", "a.yml"), "argument --jobs: not a number from 1 to 256: 'x'"),
    (("metrics", "--output", "jsn", "a.yml"), "argument --output: 'jsn' is none of text, json: did you mean json?"),
    (("metrics", "--prometheus", "localhost", "a.yml"), "not the URL of a server, `http://HOST:PORT`: localhost"),
    (("lsp", "--no-lnt"), "no option is called --no-lnt: did you mean --no-lint?"),
    (("lsp", "a.yml"), "too many arguments: 'a.yml'"),
    (("serve", "--prt", "1"), "no option is called --prt: did you mean --port?"),
    (("serve", "--port", "65536"), "argument --port: not a number from 0 to 65535: '65536'"),
    (("completion", "zhs"), "argument shell: 'zhs' is none of bash, zsh, fish: did you mean zsh?"),
    (("completion", "--hepl"), "the following arguments are required: shell"),
    (("chek", "a.yml"), "argument COMMAND: 'chek' is none of check, format, lint, metrics, lsp, serve, completion: did you mean check?"),
    (("--verson",), "no option is called --verson: did you mean --version?"),
    (("check", "\x1b]0;x\x07", "--\x1b"), "no option is called --\\x1b"),
    ((), "no COMMAND is named"),
)


def without_input(*words):
    """The status of a run, and the last line that it says; it reads standard input as it is here."""
    said = io.StringIO()
    with contextlib.redirect_stderr(said):
        try:
            status = main([*words])
        except SystemExit as ended:
            status = ended.code
    return status, said.getvalue().splitlines(keepends=True)[-1]


class Folder(unittest.TestCase):
    def setUp(self):
        folder = tempfile.TemporaryDirectory()
        self.addCleanup(folder.cleanup)
        self.folder = Path(folder.name)

    def file(self, text, name="a.yml"):
        path = self.folder / name
        path.write_bytes(text if isinstance(text, bytes) else text.encode())
        return path


class EachCommand(unittest.TestCase):
    def test_table_has_each(self):
        self.assertEqual(len(COMMAND_NAMES), len(COMMANDS))
        self.assertEqual({words[0] for words, _ in WRONG_WORDS if words} - {"chek", "--verson"}, COMMAND_NAMES)

    def test_help_and_version(self):
        for name in sorted(COMMAND_NAMES):
            for option in ("--help", "-h"):
                ran = run(name, option)
                self.assertEqual((ran.status, ran.err), (0, ""), name)
                self.assertTrue(ran.out.startswith(f"usage: promql-rules {name} "), ran.out)
            self.assertEqual(run(name, "--version"), (0, f"promql-rules {promql.__version__}\n", ""), name)

    def test_wrong_arguments(self):
        for words, said in WRONG_WORDS:
            ran = run(*words)
            name = f" {words[0]}" if words and words[0] in COMMAND_NAMES else ""
            self.assertEqual((ran.status, ran.out), (64, ""), words)
            self.assertTrue(ran.err.startswith(f"usage: promql-rules{name} "), ran.err)
            self.assertTrue(ran.err.endswith(f"\npromql-rules{name}: {said}\n"), ran.err)

    def test_long_words(self):
        """What a word is near to is found at once, however long it is."""
        begin = time.monotonic()
        self.assertEqual(run("check", "--" + "colr" * 50_000, "a.yml").status, 64)
        self.assertLess(time.monotonic() - begin, 10)

    def test_without_a_file(self):
        """Standard input is read, as by `promql`: a file for those that check files, and for `lint` a query."""
        for words, given in zip(OVER_FILES, (FINE, FINE, "up == 0", FINE)):
            self.assertEqual(run(*words, stdin=given.encode()).status, 0, words)
        self.assertEqual(run("format", stdin=MESSY.encode()), (0, FINE, ""))
        for words, given, rejected in zip(OVER_FILES, (WRONG, WRONG, "up ==", WRONG), (4, 4, 1, 4)):
            ran = run(*words, stdin=given.encode())
            self.assertEqual(ran.status, rejected, words)
            self.assertRegex(ran.err + ran.out, "(?m)^<stdin>:[15]:[16]")

    def test_without_a_file_at_a_terminal(self):
        for words in OVER_FILES:
            with mock.patch("sys.stdin", None):
                self.assertEqual(without_input(*words), (64, f"promql-rules {words[0]}: no FILE is named\n"))
            other, terminal = pty.openpty()
            with open(terminal, encoding="utf-8") as given, mock.patch("sys.stdin", given):
                self.assertEqual(without_input(*words), (64, f"promql-rules {words[0]}: no FILE is named\n"))
            os.close(other)

    def test_end_of_options(self):
        for words in (("lsp",), ("serve",), ("completion", "bash")):
            ran = run(*words, "--", "more")
            self.assertEqual((ran.status, ran.out), (64, ""), words)
            self.assertTrue(ran.err.endswith(": too many arguments: 'more'\n"), ran.err)
        self.assertEqual(run("completion", "--", "bash").status, 0)


class OverFiles(Folder):
    def test_files(self):
        """Several files, a folder, and standard input, whose name is `-`."""
        fine, wrong = self.file(FINE), self.file(WRONG, "b.yml")
        for words, rejected in zip(OVER_FILES, (4, 4, 1, 4)):
            self.assertEqual(run(*words, fine, fine).status, 0, words)
            for files in ((fine, wrong), (wrong, fine), (self.folder,)):
                ran = run(*words, *files)
                self.assertEqual(ran.status, rejected, (words, files))
                self.assertIn(f"{wrong}:5:16: ", ran.err + ran.out)
            self.assertEqual(run(*words, "-", stdin=FINE.encode()).status, 0, words)
            ran = run(*words, fine, "-", stdin=WRONG.encode())
            self.assertEqual(ran.status, rejected, words)
            self.assertIn("<stdin>:5:16: ", ran.err + ran.out)

    def test_end_of_options(self):
        before = os.getcwd()
        self.addCleanup(os.chdir, before)
        os.chdir(self.folder)
        self.file(FINE, "--jobs")
        for words in OVER_FILES:
            self.assertEqual(run(*words, "--", "--jobs").status, 0, words)

    def test_places(self):
        """What is wrong in a file has its place, also what keeps it from being read."""
        for text, status, place in (
            (WRONG, (4, 4, 1, 4), "5:16"),
            (RULE.encode() + b"'\xe9'\n", (3, 3, 3, 3), "5:12"),
            ("\ufeff".encode() + b"groups: \xe9\n", (3, 3, 3, 3), "1:9"),
            ("groups: [\n", (2, 2, 2, 2), "2:1"),
            ("groups:\n- a: b: c\n", (2, 2, 2, 2), "2:7"),
        ):
            path = self.file(text)
            for words, wanted in zip(OVER_FILES, status):
                ran = run(*words, path)
                self.assertEqual(ran.status, wanted, (text, words))
                self.assertRegex(ran.err + ran.out, rf"(?m)^{path}:{place}: ")

    @unittest.skipUnless(HAS_TOML, "there is no reader of TOML here")
    def test_places_in_settings(self):
        path = self.file(FINE)
        settings = self.file("width = 5\nwidth = = 5\n", ".promql.toml")
        for words in OVER_FILES:
            self.assertTrue(run(*words, path).err.startswith(f"{settings}:2:9: not TOML: "), words)

    def test_line_ends_and_marks(self):
        """Windows line ends and a byte order mark are no part of a query, nor of settings; and they stay in a file."""
        block = "|\n      # c\n      up\n      == 0\n"
        for mark in ("", "\ufeff"):
            for text in (FINE, RULE + block, MESSY):
                path = self.file(mark + text.replace("\n", "\r\n"))
                if HAS_TOML:
                    self.file(mark + "strict = true\r\nwidth = 80\r\n", ".promql.toml")
                self.assertEqual((run("check", path).status, run("lint", path).status), (0, 0), text)
                self.assertEqual(run("format", "--check", path).status, 0 if text == FINE else 19, text)
                self.assertEqual(run("format", "--write", path), (0, "", ""))
                written = path.read_bytes().decode()
                self.assertEqual((written.startswith(mark), "\r" in written.replace("\r\n", ""), "\n" in written.replace("\r\n", "")), (True, False, False))
                self.assertEqual(written.count("\ufeff"), len(mark))
                self.assertEqual(run("format", "--check", path), (0, "", ""))
        query = "\ufeffup\r\n# c\r\n== 0\r\n".encode()
        self.assertEqual(run("lint", stdin=query).status, 0)

    @unittest.skipUnless(HAS_TOML, "there is no reader of TOML here")
    def test_limits(self):
        """The options of the programs, which come before settings."""
        self.file("[limits]\nmax-len = 5\nmax-patterns = 5\n", ".promql.toml")
        wide, long, both = ("--max-patterns", "16000"), ("--max-len=32768",), ("--max-patterns", "16000", "--max-len", "32768")
        for words, status, within in zip(OVER_FILES, (14, 14, 1, 14), (0, 19, 0, 0)):
            for number, options in enumerate((wide, long, both)):
                ran = run(*words, *options, self.file(RULE + f"up{{a=~'{words[0]}{number}.+'}} == 0\n"))
                self.assertEqual((ran.status, " too l" in ran.err + ran.out), (within, False) if options == both else (status, True))
        self.assertEqual(promql.limits()["max_len"], 32_768)
        ran = run("format", "--max-len=99", "--max-output=5", self.file(FINE))
        self.assertEqual((ran.status, ran.out, "laid out, it would be longer than a query may be" in ran.err), (0, FINE, True))

    def test_statuses(self):
        """An error of a query has the number that it has in the programs; what could not be done comes before it."""
        for query, status in (
            ("up == 0", 0),
            ("up{a='\\xff'}", 23),
            (f"up{{a='{'b' * 40_000}'}}", 14),
            ("up ==", 4),
        ):
            path = self.file(RULE + f'"{query}"'.replace("\\", "\\\\") + "\n")
            self.assertEqual((run("check", path).status, run("format", path).status), (status, status), query[:20])
            for other in (self.folder / "none.yml", self.file("groups: [", "b.yml")):
                self.assertEqual((run("check", path, other).status, run("format", other, path).status), (2, 2))
        self.assertEqual(run("check", "--target", "rules", self.file(RULE + "'up{a=\"\\xff\"}'\n")).status, 0)
        info = self.file(RULE + "info(up)\n")
        self.assertEqual([run("format", "--enforce", matcher, info).status for matcher in ("a='b'", "a", "a=~'" + "b" * 40_000 + "'")], [13, 11, 16])
        self.assertEqual(run("check", "--strict", self.file("groups: []\n")).status, 66)
        for error, number in ((promql.TooLargeError, 14), (promql.ReadOtherwiseError, 23), (promql.QueryError, 4)):
            with self.assertRaises(error) as raised:
                promql.check({14: "a" * 40_000, 23: "1 / -0", 4: "a b"}[number])
            self.assertEqual(raised.exception.number, number)


class AtATerminal(Folder):
    def shown(self, *names, seconds, terminal="xterm"):
        """What is written to a terminal while work on these takes so many seconds each."""
        ours, theirs = pty.openpty()
        self.addCleanup(os.close, ours)
        with open(theirs, "w", encoding="utf-8") as stream, mock.patch.dict(os.environ, {"TERM": terminal, "COLUMNS": "40"}):
            made = (time.sleep(seconds) or name.upper() for name in names)
            found = list(people.with_progress(names, made, stream))
            stream.write("$")
        self.assertEqual(found, [(name, name.upper()) for name in names])
        said = b""
        while not said.endswith(b"$"):
            said += os.read(ours, 4096)
        return said[:-1].decode()

    def test_late(self):
        with mock.patch.object(people, "_PATIENCE", 0.2):
            self.assertEqual(self.shown("a", "b", seconds=0.5), "1 of 2: a\r\x1b[K2 of 2: b\r\x1b[K")
            self.assertEqual(self.shown("c\x1b" * 40, seconds=0.5), ("1 of 1: " + "c\\x1b" * 40)[:39] + "\r\x1b[K")
            self.assertEqual(self.shown("a", seconds=0.5, terminal="dumb"), "")

    def test_soon(self):
        self.assertEqual(self.shown("a", "b", seconds=0.01), "")

    def test_no_terminal(self):
        with tempfile.TemporaryFile("w") as stream, mock.patch.object(people, "_PATIENCE", 0):
            self.assertEqual(list(people.with_progress("ab", iter([1, 2]), stream)), [("a", 1), ("b", 2)])
            self.assertEqual(stream.tell(), 0)

    def test_command(self):
        """By a process: the line is gone before the messages come, and each of several processes is waited for."""
        wrong = self.file(WRONG)
        script = (
            "import sys, time; from promql import check_command, terminal; from promql.__main__ import main\n"
            "read, terminal._PATIENCE = check_command.read_document, 0.1\n"
            "check_command.read_document = lambda *given, **named: time.sleep(0.6) or read(*given, **named)\n"
            "sys.exit(main(sys.argv[1:]))"
        )
        for jobs in ("1", "2"):
            ours, theirs = pty.openpty()
            command = [sys.executable, "-c", script, "check", "--color", "never", "--jobs", jobs, wrong, self.file(FINE, "b.yml")]
            environment = {**ENVIRONMENT, "TERM": "xterm", "COLUMNS": "200"}
            ran = subprocess.run(command, stdout=subprocess.PIPE, stderr=theirs, env=environment, timeout=60, check=False)
            os.close(theirs)
            said = os.read(ours, 65_536).decode()
            os.close(ours)
            self.assertEqual((ran.returncode, ran.stdout.decode().count("\n")), (4, 2))
            self.assertTrue(said.startswith(f"1 of 2: {wrong}\r\x1b[K{wrong}:5:16: "), said)


class Called(unittest.TestCase):
    def test_module(self):
        """`python -m promql` says of itself that it is `promql-rules`."""
        command = [sys.executable, "-m", "promql", "--help"]
        ran = subprocess.run(command, stdout=subprocess.PIPE, env=ENVIRONMENT, check=True, text=True)
        self.assertTrue(ran.stdout.startswith("usage: promql-rules "), ran.stdout)

if __name__ == "__main__":
    unittest.main()
