"""Tests of the tools for files where one of many files, or a query, fails: the others go on, and the status tells of it. And of signals."""

import json
import os
import random
import signal
import subprocess
import sys
import threading
import time
import unittest
from pathlib import Path
from tempfile import TemporaryDirectory
from unittest import mock

import promql
from command_line import run
from promql import format_command, jobs
from promql.files import FileError

try:
    import ruamel.yaml  # noqa: F401
except ImportError as error:
    raise unittest.SkipTest("there is no ruamel.yaml here") from error

ROOT = Path(__file__).resolve().parents[3]
PACKAGE = Path(promql.__file__).resolve().parents[1]
RULE = "groups:\n- name: a\n  rules:\n"
GOOD = RULE + "  - record: a\n    expr: sum( (up) )\n"
FORMATTED = RULE + "  - record: a\n    expr: sum((up))\n"
FIXED = RULE + "  - record: a\n    expr: sum( up )\n"
# 2 kB whose layout is longer than a query may be.
STAIRS = " or ".join(f"n{number}" for number in range(160))
# What is in a file, and the statuses of `check`, `lint` and `format --write` for it.
BAD = {
    "b-broken.yml": ("groups: [", (2, 2, 2)),
    "b-deep.yml": ("groups:\n- " + "[" * 700, (2, 2, 2)),
    "b-deep-query.yml": (RULE + f"  - record: a\n    expr: {'sum by (b) (a + ' * 250}a{')' * 250}\n", (0, 2, 0)),
    "b-encoding.yml": (b"groups: \xff", (3, 3, 3)),
    "b-half.yml": (RULE + '  - record: a\n    expr: "{a=\\"\\ud83d\\"}"\n', (3, 2, 3)),
    "b-long-query.yml": (RULE + f"  - record: a\n    expr: '{'+'.join(['a'] * 20_000)}'\n", (14, 1, 14)),
    "b-rejected.yml": (RULE + "  - record: a\n    expr: up ==\n", (4, 1, 4)),
    "b-stairs.yml": (RULE + f"  - record: a\n    expr: {STAIRS}\n", (0, 0, 0)),
    # (a target rejects it as well)
    "b-wide-number.yml": (RULE + "  - record: a\n    expr: up offset 1000000000y\n", (24, 2, 0)),
    "x" * 251 + ".yml": (RULE + "  - record: a\n    expr: up\n", (0, 0, 0)),
}


def environment():
    return {**os.environ, "PYTHONPATH": str(PACKAGE)}


class Folders(unittest.TestCase):
    def setUp(self):
        folder = TemporaryDirectory()
        self.addCleanup(folder.cleanup)
        self.folder = Path(folder.name)
        for name in ("a-good.yml", "z-good.yml"):
            (self.folder / name).write_text(GOOD)
        for name, (text, _) in BAD.items():
            (self.folder / name).write_bytes(text if isinstance(text, bytes) else text.encode())
        (self.folder / "c-folder.yml").mkdir()
        (self.folder / "d-link.yml").symlink_to("nowhere")
        (self.folder / "e-loop.yml").symlink_to("e-loop.yml")
        os.mkfifo(self.folder / "f-pipe.yml")

    def names(self):
        return sorted(self.folder / name for name in os.listdir(self.folder))

    def test_each_alone(self):
        for name, (_, statuses) in BAD.items():
            for command, status in zip((("check", "--queries"), ("lint",), ("format", "--write")), statuses):
                with self.subTest(name=name, command=command):
                    ran = run(*command, self.folder / name)
                    self.assertEqual(ran.status, status, ran)
                    self.assertNotIn("Traceback", ran.err)

    def test_folder(self):
        """Files that fail, in each way, and between others which do not."""
        for command, wanted in ((("check",), GOOD), (("lint",), GOOD), (("format", "--write"), FORMATTED), (("lint", "--fix"), None)):
            for options in ((), ("--jobs=3",)):
                with self.subTest(command=command, options=options):
                    for name in ("a-good.yml", "z-good.yml"):
                        (self.folder / name).write_text(GOOD)
                    ran = run(*command, *options, self.folder)
                    self.assertEqual(ran.status, 2)
                    self.assertNotIn("Traceback", ran.out + ran.err)
                    self.assertNotIn("Error:", ran.err)
                    for name in ("b-broken.yml", "b-deep.yml", "b-encoding.yml", "d-link.yml", "e-loop.yml"):
                        self.assertIn(f"{self.folder / name}:", ran.err)
                    for name in ("a-good.yml", "z-good.yml"):
                        self.assertEqual((self.folder / name).read_text(), wanted or FIXED)
        self.assertEqual([name for name in os.listdir(self.folder) if name.startswith(".")], [])

    def test_names(self):
        """The same where each file is named, and a folder and a pipe with no writer among them."""
        for command in (("check",), ("lint",), ("format", "--check")):
            ran = run(*command, *self.names())
            self.assertEqual(ran.status, 2)
            self.assertIn("z-good.yml", ran.out)
            self.assertNotIn("Traceback", ran.err)

    def test_would_change(self):
        """What would change is told from what fails."""
        for options, status in ((("z-good.yml",), 19), (("z-good.yml", "b-rejected.yml"), 4), (("b-deep-query.yml",), 0)):
            self.assertEqual(run("format", "--check", *(self.folder / name for name in options)).status, status)

    def test_vanishing(self):
        """A file that is gone when it is to be read, or to be written."""
        path = self.folder / "a-good.yml"
        before = format_command.read_document

        def read(target, *arguments, **options):
            found = before(target, *arguments, **options)
            if target.name == str(path):
                path.unlink()
            return found

        with mock.patch.object(format_command, "read_document", read):
            ran = run("format", "--write", path, self.folder / "z-good.yml")
        self.assertEqual((ran.status, ran.err), (5, f"{path}: No such file or directory\n"))
        self.assertEqual((self.folder / "z-good.yml").read_text(), FORMATTED)

    def test_full_disk(self):
        path, last = self.folder / "a-good.yml", self.folder / "z-good.yml"
        real, calls = os.fsync, []

        def fsync(descriptor):
            calls.append(descriptor)
            if len(calls) == 1:
                raise OSError(28, "No space left on device")
            return real(descriptor)

        with mock.patch("os.fsync", fsync):
            ran = run("format", "--write", path, last)
        self.assertEqual((ran.status, ran.err), (5, f"{path}: No space left on device\n"))
        self.assertEqual((path.read_text(), last.read_text()), (GOOD, FORMATTED))

    def test_unreadable(self):
        path = self.folder / "a-good.yml"
        path.chmod(0)
        self.folder.chmod(0o755)
        command = [sys.executable, "-m", "promql", "check", path, self.folder / "z-good.yml"]
        user = {"user": 65_534} if os.geteuid() == 0 else {}
        ran = subprocess.run(command, env=environment(), capture_output=True, text=True, check=False, **user)
        self.assertEqual((ran.returncode, "Permission denied" in ran.stderr, "z-good.yml: 1 rule" in ran.stdout), (2, True, True), ran)

    def test_anything(self):
        """What no command knows of: it is told of the file, and the others go on."""
        for failure, said in (
            (KeyError("x"), "KeyError: 'x'"),
            (MemoryError(), "out of memory"),
            (RecursionError(), "nested too deeply"),
            (FileError("a file: why"), "a file: why"),
        ):

            def work(target, failure=failure):
                if target.name == "a":
                    raise failure
                return jobs.Report(0, b"fine\n", [])

            targets = [jobs.Target("a"), jobs.Target("b")]
            reports = list(jobs.reports_of(targets, work, 1))
            self.assertEqual([report.status for report in reports], [2, 0])
            self.assertIn(said, reports[0].messages[0].text)


class Layouts(unittest.TestCase):
    def test_stairs(self):
        """A layout that is longer than a query may be is made for people, in rule files and dashboards."""
        self.assertGreater(len(promql.pretty(STAIRS)), 32_768)
        with TemporaryDirectory() as folder:
            rules, board = Path(folder, "a.yml"), Path(folder, "a.json")
            rules.write_text(RULE + f"  - record: a\n    expr: {STAIRS}\n  - record: b\n    expr: up==1\n")
            board.write_text(json.dumps({"targets": [{"expr": STAIRS}, {"expr": f"$x or {STAIRS}"}, {"expr": "up==1"}]}))
            for path in (rules, board):
                self.assertEqual(run("format", "--write", path), (0, "", ""))
                self.assertEqual(run("check", path).status, 0)
                self.assertEqual(run("format", "--check", path), (0, "", ""))
            read = json.loads(board.read_text())["targets"]
        self.assertEqual([it["expr"] for it in read], [promql.format_query(STAIRS, width=100), read[1]["expr"], "up == 1"])
        self.assertEqual(promql.canonical(read[1]["expr"].replace("$x", "x")), promql.canonical(f"x or {STAIRS}"))

    def test_too_long(self):
        """A query of which no layout is short enough stays as it is, with a warning, and others do not."""
        query = "(" * 100 + "+".join(["(a" + "+a" * 40 + ")"] * 300) + ")" * 100
        promql.check(query)
        with TemporaryDirectory() as folder:
            path = Path(folder, "a.yml")
            path.write_text(RULE + f"  - record: a\n    expr: {query}\n  - record: b\n    expr: up==1\n")
            ran = run("format", "--write", path)
            self.assertEqual((ran.status, ran.out), (0, ""))
            self.assertEqual(ran.err, f"{path}:5:11: warning: left as it is: laid out, it would be longer than a query may be\n")
            self.assertEqual(path.read_text(), RULE + f"  - record: a\n    expr: {query}\n  - record: b\n    expr: up == 1\n")


class Options(unittest.TestCase):
    def test_names_like_options(self):
        with TemporaryDirectory() as folder:
            for name in ("-qup.yml", "--fix.yml", "-v"):
                Path(folder, name).write_text(GOOD)
            for words, status in ((["check"], 0), (["lint"], 1), (["format", "--check"], 19), (["format", "--write"], 0), (["lint", "--fix", "--ignore=P701"], 0)):
                command = [sys.executable, "-m", "promql", *words, "--", "-qup.yml", "--fix.yml", "-v"]
                ran = subprocess.run(command, cwd=folder, env=environment(), capture_output=True, text=True, check=False)
                self.assertEqual((ran.returncode, "Traceback" in ran.stderr), (status, False), ran)
            self.assertEqual(sorted(os.listdir(folder)), ["--fix.yml", "-qup.yml", "-v"])

    def test_hook(self):
        """The hooks end their options, and a name of a file is none where a configuration does not."""
        text = (ROOT / ".pre-commit-hooks.yaml").read_text()
        self.assertEqual(text.count("entry:"), text.count("args: [--]\n"))
        with TemporaryDirectory() as folder:
            Path(folder, "-qup.yml").write_text(GOOD)
            for ends in ([], ["--"]):
                ran = subprocess.run(
                    [sys.executable, "-m", "promql.hook", "check", *ends, "-qup.yml"],
                    cwd=folder, env=environment(), capture_output=True, text=True, check=False,
                )  # fmt: skip
                self.assertEqual((ran.returncode, ran.stdout), (0, "./-qup.yml: 1 rule, no errors\n"))

    def test_numbers(self):
        for option in (("check", "--jobs"), ("lint", "--jobs"), ("format", "--width"), ("check", "--max-file-patterns"), ("serve", "--port")):
            for number in ("+1", " 1", "1 ", "1_000", "\u0661", "\uff11", "", "1.0", "-1", "0x1", "1e3", "9" * 5_000):
                with self.subTest(option=option, number=number[:10]):
                    self.assertEqual(run(option[0], f"{option[1]}={number}", "/nowhere")[:2], (64, ""))
        self.assertEqual(run("check", "--jobs=01", "--max-file-patterns=18446744073709551615", "/nowhere").err, "/nowhere: No such file or directory\n")


class Signals(unittest.TestCase):
    KILLS = int(os.environ.get("PROMQL_KILLS", "45"))

    def test_killed(self):
        """However the process is ended at any moment, no file is left beside the files, and each of them is whole."""
        generator = random.Random(1)
        wanted = (signal.SIGTERM, signal.SIGINT, signal.SIGHUP)
        with TemporaryDirectory() as folder:
            paths = [Path(folder, f"{number:02}.yml") for number in range(60)]
            lengths = []
            for number in range(self.KILLS):
                for path in paths:
                    path.write_text(GOOD)
                words = (("lint", "--fix", "--ignore", "P701"), ("format", "--write"))[number % 2]
                begin = time.monotonic()
                with subprocess.Popen(
                    [sys.executable, "-m", "promql", *words, folder], env=environment(), stdout=subprocess.PIPE, stderr=subprocess.PIPE
                ) as process:
                    if number >= 2:
                        timer = threading.Timer(generator.uniform(0.3, 1) * max(lengths), process.send_signal, (wanted[number % 3],))
                        timer.start()
                    _, said = process.communicate()
                    if number >= 2:
                        timer.cancel()
                if number < 2:
                    lengths.append(time.monotonic() - begin)
                # (while Python still reads modules, it tells of an interrupt itself)
                if b"in program\n" in said or not said.endswith(b"\nKeyboardInterrupt\n"):
                    self.assertEqual(said, b"")
                self.assertIn(process.returncode, (0, *(-it for it in wanted)))
                self.assertEqual(sorted(os.listdir(folder)), [path.name for path in paths])
                self.assertLessEqual({path.read_text() for path in paths}, {GOOD, FORMATTED, FIXED})

    def test_waits(self):
        """A signal that comes while a file is replaced ends the process after that."""
        script = (
            "import os, sys; number, real = int(sys.argv.pop(1)), os.replace\n"
            "os.replace = lambda *paths: (os.kill(os.getpid(), number), real(*paths))\n"
            "from promql.__main__ import program; sys.exit(program())\n"
        )
        with TemporaryDirectory() as folder:
            for number in (signal.SIGTERM, signal.SIGINT, signal.SIGHUP, signal.SIGQUIT, signal.SIGALRM, signal.SIGUSR1):
                path = Path(folder, "a.yml")
                path.write_text(GOOD)
                command = [sys.executable, "-c", script, str(int(number)), "format", "--write", path]
                ran = subprocess.run(command, env=environment(), capture_output=True, check=False)
                self.assertEqual((ran.returncode, ran.stderr), (-number, b""))
                self.assertEqual((path.read_text(), os.listdir(folder)), (FORMATTED, ["a.yml"]))


if __name__ == "__main__":
    unittest.main()
