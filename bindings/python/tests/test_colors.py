"""Tests of the colours of messages: python3 -m unittest discover -s tests, where Python finds the package."""

import io
import os
import pty
import subprocess
import sys
import unittest
from pathlib import Path
from unittest import mock

from command_line import run
from promql import terminal

FILES = Path(__file__).resolve().parent / "files"
BOARD = b'{"panels": [{"targets": [{"expr": "rate(foo)\\u001b"}]}]}'
PLAIN = """\
<stdin>:1:45: unexpected character: '\\x1b'
{"panels": [{"targets": [{"expr": "rate(foo)\\u001b"}]}]}
                                            ^~~~~~
"""


class Messages(unittest.TestCase):
    def test_painted(self):
        message = "a.yml:5:54: wrong\n    expr: b:1:2: c\n    ^~~\na:b.yml:1:1: warning: d: e\nno place\n"
        wanted = (
            "\x1b[1ma.yml:5:54:\x1b[0m wrong\n    expr: b:1:2: c\n    \x1b[1;32m^~~\x1b[0m\n"
            "\x1b[1ma:b.yml:1:1:\x1b[0m \x1b[35mwarning: \x1b[0md: e\nno place\n"
        )
        self.assertEqual(terminal.painted(message), wanted)
        self.assertEqual(terminal.painted(""), "")

    def test_when(self):
        screen, file = mock.Mock(isatty=lambda: True), io.StringIO()
        for environment, stream, wanted in (
            ({}, screen, True),
            ({}, file, False),
            ({"NO_COLOR": "1"}, screen, False),
            ({"NO_COLOR": ""}, screen, True),
            ({"TERM": "dumb"}, screen, False),
        ):
            with mock.patch.dict(os.environ, environment, clear=True):
                self.assertEqual(terminal.wants_colors("auto", stream), wanted, environment)
                self.assertTrue(terminal.wants_colors("always", stream))
                self.assertFalse(terminal.wants_colors("never", stream))

    def test_check(self):
        for color in "auto", "never":
            self.assertEqual(run("check", "--dashboard", "--color", color, "-", stdin=BOARD).err, PLAIN)
        ran = run("check", "--dashboard", "--color", "always", "-", stdin=BOARD)
        self.assertEqual((ran.status, ran.err), (4, terminal.painted(PLAIN)))
        self.assertNotEqual(ran.err, PLAIN)
        self.assertEqual(run("format", "--dashboard", "--color=always", "-", stdin=BOARD).err, terminal.painted(PLAIN))
        self.assertEqual(run("check", "--color", "sometimes", "-").status, 64)

    def test_terminal(self):
        ours, theirs = pty.openpty()
        environment = {key: value for key, value in os.environ.items() if key not in ("NO_COLOR", "TERM")}
        command = [sys.executable, "-m", "promql", "check", "--dashboard", "-"]
        subprocess.run(command, input=BOARD, stdout=subprocess.DEVNULL, stderr=theirs, env={**environment, "TERM": "xterm"}, timeout=60)
        os.close(theirs)
        said = os.read(ours, 4096).decode()
        os.close(ours)
        self.assertEqual(said.replace("\r\n", "\n"), terminal.painted(PLAIN))


if __name__ == "__main__":
    unittest.main()
