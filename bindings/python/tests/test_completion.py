"""Tests of completions: python3 -m unittest discover -s tests, where Python finds the package."""

import shutil
import subprocess
import tempfile
import unittest
from pathlib import Path

import promql
from command_line import run

# The words before the one that is completed, its beginning, and what may come there.
COMPLETED = (
    ((), "", ["check", "completion", "format", "lint", "lsp", "metrics", "serve"]),
    ((), "ch", ["check"]),
    (("check",), "--c", ["--color", "--config"]),
    (("format",), "--wi", ["--width"]),
    (("format", "a.yml", "--color"), "", ["always", "auto", "never"]),
    (("completion",), "b", ["bash"]),
    (("lint", "a.yml", "--output"), "", ["github", "json", "junit", "sarif", "text"]),
    (("check",), "--prometheus-p", ["--prometheus-password-file"]),
    (("metrics", "a.yml", "--output"), "", ["json", "text"]),
    (("serve",), "--p", ["--port"]),
)


def ran(*command):
    return subprocess.run(command, stdout=subprocess.PIPE, check=True, timeout=60).stdout.decode().split()


class Completions(unittest.TestCase):
    def setUp(self):
        folder = tempfile.TemporaryDirectory()
        self.addCleanup(folder.cleanup)
        self.folder = Path(folder.name)

    def script(self, shell):
        """A file with what a shell reads."""
        said = run("completion", shell)
        self.assertEqual((said.status, said.err), (0, ""))
        path = self.folder / f"script.{shell}"
        path.write_text(said.out)
        return str(path)

    def test_version(self):
        self.assertEqual(run("--version"), (0, f"promql-rules {promql.__version__}\n", ""))

    @unittest.skipUnless(shutil.which("bash"), "there is no bash here")
    def test_bash(self):
        call = '. "$1"; shift; COMP_WORDS=("$@"); COMP_CWORD=$(($# - 1)); _promql_rules; printf "%s\\n" "${COMPREPLY[@]}"'
        script = self.script("bash")
        for before, word, wanted in COMPLETED:
            found = ran("bash", "-c", call, "bash", script, "promql-rules", *before, word)
            self.assertEqual(sorted(set(found) - {"--help", "--version"}), wanted, (before, word))
        # (a file comes by the shell's own completion)
        self.assertEqual(ran("bash", "-c", call, "bash", script, "promql-rules", "check", ""), [])
        self.assertEqual(ran("bash", "-c", '. "$1"; complete -p promql-rules', "bash", script)[-1], "promql-rules")

    @unittest.skipUnless(shutil.which("zsh"), "there is no zsh here")
    def test_zsh(self):
        script = self.script("zsh")
        subprocess.run(["zsh", "-n", script], check=True, timeout=60)
        given = 'autoload -Uz compinit; compinit -u -D; . "$1"; echo $_comps[promql-rules]'
        self.assertEqual(ran("zsh", "-fc", given, "zsh", script), ["_promql_rules"])

    @unittest.skipUnless(shutil.which("fish"), "there is no fish here")
    def test_fish(self):
        script = self.script("fish")
        for before, word, wanted in COMPLETED:
            line = " ".join(("promql-rules", *before, word))
            found = ran("env", f"HOME={self.folder}", "fish", "--no-config", "-c", f"source '{script}'; complete -C '{line}' | cut -f 1")
            self.assertEqual(sorted(found), wanted, line)


if __name__ == "__main__":
    unittest.main()
