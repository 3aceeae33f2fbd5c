#!/usr/bin/env python3
"""Runs the commands of docs/guide/formatter.md, "In an editor": those after `:%!` and `formatprg=` by `sh -c`, and all of them in
vim, where there is one, on a query in a file. The last line is 'N passed, M failed'.
"""

import os
import re
import shutil
import subprocess
import sys
import tempfile
from pathlib import Path

ROOT = Path(__file__).resolve().parent.parent
sys.path.insert(0, str(ROOT / "bin"))
from checks import Checks, released  # noqa: E402

GUIDE = ROOT / "docs/guide/formatter.md"
ENVIRONMENT = {**os.environ, "PATH": f"{released('promql').parent}{os.pathsep}{os.environ['PATH']}"}
QUERY = 'sum by(job)(rate(errors_total{code=~"5..",job="api"}[5m]))\n/ on (job)\n# all\nsum(rate(requests_total{job="api"}[5m]))by(job)\n'
LAID_OUT = (
    '  sum by (job) (rate(errors_total{code=~"5..",job="api"}[5m]))\n'
    "/ on (job)\n"
    '  sum by (job) (rate(requests_total{job="api"}[5m]))\n'
)
REJECTED = "sum(\n"
MESSAGE = "1:5: unclosed left parenthesis\nsum(\n    ^\n"

checks = Checks()


def check(name, found, wanted):
    checks.check(found == wanted, f"{name}: wanted {wanted!r}, got {found!r}")


def filtered(command, text):
    """The status of a command, and what it writes."""
    ran = subprocess.run(["sh", "-c", command], input=text, stdout=subprocess.PIPE, stderr=subprocess.PIPE, env=ENVIRONMENT, text=True)
    return ran.returncode, ran.stdout, ran.stderr


def edited(text, *commands):
    """The text of a file after these commands of vim."""
    with tempfile.TemporaryDirectory() as folder:
        path = Path(folder) / "query.promql"
        path.write_text(text, encoding="utf-8")
        script = Path(folder) / "commands.vim"
        script.write_text("\n".join([*commands, "write", "quit!"]) + "\n", encoding="utf-8")
        subprocess.run(["vim", "-N", "-u", "NONE", "-es", "-S", script, path], env=ENVIRONMENT, stdin=subprocess.DEVNULL, timeout=30)
        return path.read_text(encoding="utf-8")


def main():
    blocks = re.findall(r"```vim\n(.*?)```", GUIDE.read_text(encoding="utf-8"), re.S)
    (filter_line, option_line), function = map(str.splitlines, blocks)
    for command in filter_line.split("!", 1)[1], option_line.split("=", 1)[1].replace("\\ ", " "):
        check(command, filtered(command, QUERY), (0, LAID_OUT, ""))
        check(command, filtered(command, REJECTED), (4, "", MESSAGE))
    if shutil.which("vim"):
        for text, by_filter, by_function in (QUERY, LAID_OUT, LAID_OUT), (REJECTED, MESSAGE, REJECTED):
            check(filter_line, edited(text, filter_line), by_filter)
            check(option_line, edited(text, option_line, "normal gggqG"), by_filter)
            check("FormatPromql", edited(text, *function, "FormatPromql"), by_function)
            check("undo", edited(text, filter_line, "undo"), text)
    return checks.end()


sys.exit(main())
