#!/usr/bin/env python3
"""Tries the language server in Emacs with Eglot, with the configuration of docs/guide/editor.md. The last line is 'N passed, M failed'."""

import os
import re
import subprocess
import sys
import tempfile
from pathlib import Path

ROOT = Path(__file__).resolve().parent.parent
sys.path.insert(0, str(ROOT / "bin"))
from checks import print_counts  # noqa: E402

GUIDE = ROOT / "docs/guide/editor.md"
SCRIPT = """
(require 'eglot)
(setq eglot-sync-connect 10)
(find-file "query.promql")
(call-interactively 'eglot)
(let ((until (+ (float-time) 10)))
  (while (and (< (float-time) until) (null (flymake-diagnostics)))
    (flymake-start)
    (accept-process-output nil 0.1)))
(dolist (it (flymake-diagnostics))
  (message "diagnostic %d %d %s" (flymake-diagnostic-beg it) (flymake-diagnostic-end it) (flymake-diagnostic-text it)))
(goto-char 2)
(message "hover %S" (jsonrpc-request (eglot-current-server) :textDocument/hover (eglot--TextDocumentPositionParams)))
(erase-buffer)
(insert "sum(rate(up[5m]))by(job)")
(eglot-format-buffer)
(message "formatted %s" (buffer-string))
(erase-buffer)
(insert "sum(ra")
(message "completion %s" (member "rate" (mapcar #'substring-no-properties (all-completions "ra" (nth 2 (eglot-completion-at-point))))))
(set-buffer-modified-p nil)
(eglot-shutdown (eglot-current-server))
"""
WANTED = (
    r"^diagnostic 6 8 .*expected type matrix in call to function 'rate', got vector$",
    r"^hover .*\n?rate\(range: matrix\): vector",
    r"^formatted sum by \(job\) \(rate\(up\[5m\]\)\)$",
    r"^completion \(rate",
)


def main():
    (setup,) = re.findall(r"```elisp\n(.*?)```", GUIDE.read_text(encoding="utf-8"), re.S)
    with tempfile.TemporaryDirectory() as folder:
        (Path(folder) / "query.promql").write_text("rate(up)\n", encoding="utf-8")
        script = Path(folder) / "script.el"
        script.write_text(setup + SCRIPT, encoding="utf-8")
        programs = Path(folder) / "bin"
        programs.mkdir()
        server = programs / "promql-rules"
        server.write_text(f'#!/bin/sh\nexec "{sys.executable}" -m promql "$@"\n', encoding="utf-8")
        server.chmod(0o755)
        path = f"{programs}{os.pathsep}{os.environ['PATH']}"
        environment = {**os.environ, "PATH": path, "PYTHONPATH": str(ROOT / "bindings/python"), "HOME": folder}
        command = ["emacs", "--batch", "-l", str(script)]
        ran = subprocess.run(
            command, cwd=folder, env=environment, stdout=subprocess.PIPE, stderr=subprocess.STDOUT, stdin=subprocess.DEVNULL, timeout=120
        )
    said = ran.stdout.decode()
    missing = [pattern for pattern in WANTED if not re.search(pattern, said, re.M)]
    for pattern in missing:
        print(f"FAILED {pattern}: Emacs said {said}")
    return print_counts(len(WANTED) - len(missing), len(missing))


sys.exit(main())
