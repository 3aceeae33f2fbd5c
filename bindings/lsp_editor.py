#!/usr/bin/env python3
"""Tries the language server in Neovim, with the configuration of docs/guide/editor.md: each feature as a user has it, by keys and by the
commands of the editor. The last line is 'N passed, M failed'; --times prints what a file of 1,000 rules takes.
"""

import json
import os
import re
import statistics
import subprocess
import sys
import tempfile
import time
from pathlib import Path

import lsp_files

ROOT = Path(__file__).resolve().parent.parent
sys.path.insert(0, str(ROOT / "bin"))
from checks import Checks  # noqa: E402

GUIDE = ROOT / "docs/guide/editor.md"
PATIENCE = 5
# The greatest median of the times of a request, in milliseconds; a rename waits for the folder to be read, and for what is read before.
MOST, MOST_OF_FOLDER = 50, 2_000
ROUNDS = 3
RULES = """\
groups:
- name: shop
  rules:
  - record: job:errors:rate5m
    expr: |
      sum by (job) (rate(errors_total{zone="west"}[5m]))
  - alert: Errors
    expr: sum(job:errors:rate5m)by(job) > 3
    for: 5m
"""
QUERY = "job:errors:rate5m / 2\n"
BOARD = """\
{
  "panels": [
    { "title": "Errors", "targets": [{ "expr": "sum(job:errors:rate5m{zone=~\\"west\\"})by(job)" }] }
  ]
}
"""

checks = Checks()


def check(name, found, wanted):
    is_so = found == wanted or callable(wanted) and wanted(found)
    checks.check(is_so, f"{name}: got {found!r}" + ("" if callable(wanted) else f", wanted {wanted!r}"))


class Editor:
    """A Neovim without a screen, to which keys are sent."""

    def __init__(self, folder):
        self.folder = Path(folder)
        self.socket = str(self.folder / "socket")
        (lua,) = re.findall(r"```lua\n(.*?)```", GUIDE.read_text(encoding="utf-8"), re.S)
        start = self.folder / "init.lua"
        start.write_text(lua, encoding="utf-8")
        programs = self.folder / "bin"
        programs.mkdir()
        server = programs / "promql-rules"
        server.write_text(f'#!/bin/sh\nexec "{sys.executable}" -m promql "$@"\n', encoding="utf-8")
        server.chmod(0o755)
        self.environment = {
            **os.environ,
            "PATH": f"{programs}{os.pathsep}{os.environ['PATH']}",
            "PYTHONPATH": str(ROOT / "bindings/python"),
            "XDG_STATE_HOME": folder,
            "XDG_DATA_HOME": folder,
            "XDG_CACHE_HOME": folder,
        }
        command = ["nvim", "--headless", "-n", "-u", str(start), "--listen", self.socket]
        unused = {"stdin": subprocess.DEVNULL, "stdout": subprocess.DEVNULL, "stderr": subprocess.DEVNULL}
        self.process = subprocess.Popen(command, env=self.environment, cwd=folder, **unused)
        self.wait("the editor", lambda: os.path.exists(self.socket), bool)

    def remote(self, *arguments):
        command = ["nvim", "--server", self.socket, *arguments]
        ran = subprocess.run(command, env=self.environment, stdout=subprocess.PIPE, stderr=subprocess.STDOUT, timeout=60)
        return ran.stdout.decode()

    def keys(self, keys):
        self.remote("--remote-send", keys)

    def lua(self, code):
        """The value of a function's body in Lua."""
        script = self.folder / "asked.lua"
        script.write_text(f"return vim.json.encode((function()\n{code}\nend)())", encoding="utf-8")
        said = self.remote("--remote-expr", f"luaeval('dofile(_A)', '{script}')")
        try:
            return json.loads(said)
        except ValueError:
            return said

    def wait(self, name, ask, is_there):
        """Asks until the answer is there, and returns the last one."""
        until = time.monotonic() + PATIENCE
        while True:
            found = ask()
            if is_there(found) or time.monotonic() > until:
                return found
            time.sleep(0.05)

    def wait_lua(self, code, is_there):
        return self.wait(code, lambda: self.lua(code), is_there)

    def edit(self, name, text=None):
        if text is not None:
            (self.folder / name).write_text(text, encoding="utf-8")
        self.keys(f"<Esc>:edit! {name}<CR>")

    def put_cursor(self, word, more=0):
        """Puts the cursor into the first place of a word."""
        self.lua(f"vim.fn.cursor(1, 1) vim.fn.search({lua_text(word)}, 'cW') vim.fn.cursor(0, vim.fn.col('.') + {more})")

    def text(self):
        return self.lua("return table.concat(vim.api.nvim_buf_get_lines(0, 0, -1, false), '\\n') .. '\\n'")

    def diagnostics(self):
        return self.lua(
            "local found = {} for _, it in ipairs(vim.diagnostic.get(0)) do"
            " table.insert(found, {it.lnum, it.col, it.end_lnum, it.end_col, it.message}) end return found"
        )

    def floating(self):
        """The lines of the window that floats."""
        return self.lua(
            "for _, it in ipairs(vim.api.nvim_list_wins()) do if vim.api.nvim_win_get_config(it).relative ~= '' then"
            " return table.concat(vim.api.nvim_buf_get_lines(vim.api.nvim_win_get_buf(it), 0, -1, false), '\\n') end end return ''"
        )

    def close_floating(self):
        self.lua(
            "for _, it in ipairs(vim.api.nvim_list_wins()) do if vim.api.nvim_win_get_config(it).relative ~= '' then"
            " vim.api.nvim_win_close(it, true) end end"
        )

    def asked(self, method, params):
        """What the server answers to a request that this version of the editor has no command for."""
        return self.lua(
            f"local params = {params} params.textDocument = vim.lsp.util.make_text_document_params(0)"
            f" local found = vim.lsp.buf_request_sync(0, {lua_text(method)}, params, 20000)"
            " for _, it in pairs(found) do return it.result or it.error end"
        )

    def close(self):
        """Ends the editor, and returns whether the server ended as well."""
        servers = self.lua("return #vim.lsp.get_active_clients()")
        children = subprocess.run(["pgrep", "-P", str(self.process.pid)], stdout=subprocess.PIPE).stdout.split()
        self.keys("<Esc>:qall!<CR>")
        self.process.wait(timeout=PATIENCE)
        ended = self.wait("the end", lambda: not any(os.path.exists(f"/proc/{child.decode()}") for child in children), bool)
        return servers, len(children), ended


def lua_text(text):
    return "'" + text.replace("\\", "\\\\").replace("'", "\\'") + "'"


def test_diagnostics(editor):
    editor.edit("new.promql", 'up{a="𝄞"}\n')
    check("one server is attached", editor.wait_lua("return #vim.lsp.buf_get_clients()", lambda it: it == 1), 1)
    editor.keys("A + rate(up)<Esc>")
    found = editor.wait("a diagnostic", editor.diagnostics, bool)
    check("a diagnostic as one types", [it[4] for it in found], ["expected type matrix in call to function 'rate', got vector"])
    # (columns of the editor are bytes: the character before has four)
    check("its place", [it[:4] for it in found], [[0, 20, 0, 22]])
    editor.keys("i[5m]<Esc>")
    check("none when it is mended", editor.wait("no diagnostic", editor.diagnostics, lambda it: not it), lambda it: not it)
    editor.edit("broken.yml", RULES.replace("by(job) > 3", "by(job > 3"))
    found = editor.wait("a diagnostic", editor.diagnostics, bool)
    check("a diagnostic in a rule file", [it[0] for it in found], [7])
    editor.edit("labels.yml", RULES.replace("for: 5m", "for: 5 m"))
    found = editor.wait("a diagnostic", editor.diagnostics, bool)
    check("a diagnostic of a duration", [it[0] for it in found], [8])
    editor.edit("other.yml", "services:\n  web: {}\n")
    time.sleep(1)
    check("no diagnostic in other YAML", editor.diagnostics(), lambda it: not it)


def test_layout(editor):
    editor.edit("layout.promql", "sum(rate(a[5m]))by(job)\n")
    ready(editor)
    editor.lua("vim.lsp.buf.formatting_sync(nil, 20000)")
    check("a query is formatted", editor.text(), "sum by (job) (rate(a[5m]))\n")
    editor.keys("u")
    check("and it is undone", editor.wait("the old text", editor.text, lambda it: "by(" in it), "sum(rate(a[5m]))by(job)\n")
    editor.edit("layout.yml", RULES.replace("< 3", "<3"))
    ready(editor)
    editor.lua("vim.lsp.buf.formatting_sync(nil, 20000)")
    check("a rule file is formatted", editor.text(), RULES.replace("sum(job:errors:rate5m)by(job)", "sum by (job) (job:errors:rate5m)"))
    editor.edit("part.yml", RULES.replace("sum by (job) (rate", "sum  by(job)(rate"))
    ready(editor)
    editor.lua("vim.lsp.buf.range_formatting({}, {7, 0}, {8, 10})")
    found = editor.wait("the new text", editor.text, lambda it: "sum by (job) (job" in it)
    check("a part is formatted", "sum  by(job)(rate" in found and "sum by (job) (job:errors" in found, True)


def ready(editor):
    editor.wait_lua("local c = vim.lsp.buf_get_clients() for _, it in pairs(c) do return it.initialized or false end return false", bool)


def hovered(editor, word, more=0):
    editor.close_floating()
    editor.put_cursor(word, more)
    editor.lua("vim.lsp.buf.hover()")
    found = editor.wait("a window", editor.floating, bool)
    editor.close_floating()
    return found


def test_telling(editor):
    editor.edit("rules.yml", RULES)
    editor.edit("query.promql", QUERY)
    ready(editor)
    check("hover on a metric", hovered(editor, "errors"), lambda it: "job:errors:rate5m" in it and "Recorded as" in it and "zone" in it)
    check("hover on an operator", hovered(editor, "/"), lambda it: "instant vector" in it)
    editor.edit("rules.yml")
    check("hover on a function", hovered(editor, "rate(", 1), lambda it: "rate(range: matrix): vector" in it and "How fast" in it)
    check("hover on a keyword", hovered(editor, "by", 1), lambda it: "keeps these labels" in it)
    editor.edit("signature.promql", "label_replace(up, 'a', \n")
    ready(editor)
    editor.keys("A")
    editor.lua("vim.fn.cursor(1, 100) vim.lsp.buf.signature_help()")
    check("signature help", editor.wait("a window", editor.floating, bool), lambda it: "label_replace(v: vector, target: string" in it)
    editor.keys("<Esc>")
    editor.close_floating()


def completed(editor, text, keys):
    """What the menu has after these keys at the end of a text."""
    editor.edit("complete.promql", text)
    ready(editor)
    editor.keys(f"A{keys}<C-x><C-o>")
    return editor.wait_lua(
        "local found = {} for _, it in ipairs(vim.fn.complete_info({'items'}).items) do table.insert(found, it.word) end return found", bool
    )


def test_completion(editor):
    editor.edit("rules.yml", RULES)
    ready(editor)
    # (this waits till the file is read)
    editor.asked("textDocument/documentSymbol", "{}")
    found = completed(editor, "up\n", " + ra")
    check("completion of functions", found, lambda it: "rate" in it and "sum" not in it)
    editor.keys("<C-n><C-n><Esc>")
    check("what is chosen is written", editor.text(), lambda it: it.startswith("up + ") and it != "up + ra\n")
    check("completion of keywords", completed(editor, "up\n", " "), lambda it: "unless" in it and "rate" not in it)
    editor.keys("<Esc>")
    # (what alone goes on is written at once)
    editor.edit("complete.promql", "")
    ready(editor)
    editor.keys("Ajob<C-x><C-o>")
    check("completion of metrics", editor.wait("the name", editor.text, lambda it: "rate5m" in it), "job:errors:rate5m\n")
    editor.keys("<Esc>")
    check("completion of labels", completed(editor, "", "errors_total{"), lambda it: "zone" in it and "rate" not in it)
    editor.keys("<Esc>")
    check("completion of values", completed(editor, "", 'errors_total{zone="'), lambda it: "west" in it)
    editor.keys("<Esc>")
    check("completion of durations", completed(editor, "", "errors_total["), lambda it: "5m" in it)
    editor.keys("<Esc>")
    check("completion of units", completed(editor, "", "errors_total[5"), lambda it: "5m" in it and "rate" not in it)
    editor.keys("<Esc>")
    check("half a word is not completed with itself", completed(editor, "", "errors"), lambda it: "errors" not in it and "errors_total" in it)
    editor.keys("<Esc>")
    for after, keys in ("expr: |-\n        ", "sum(err"), ("expr: ", "sum(err"), ("expr: ", "'sum(err"):
        editor.edit("written.yml", RULES + "  - record: new\n    " + after + "\n")
        ready(editor)
        editor.keys(f"G$A{keys}<C-x><C-o>")
        words = "local found = {} for _, it in ipairs(vim.fn.complete_info({'items'}).items) do table.insert(found, it.word) end return found"
        check(f"completion of {after + keys!r}", editor.wait_lua(words, bool), lambda it: "errors_total" in it)
        editor.keys("<Esc>")


def test_navigation(editor):
    editor.edit("rules.yml", RULES)
    editor.edit("query.promql", QUERY)
    ready(editor)
    editor.put_cursor("errors")
    editor.lua("vim.lsp.buf.definition()")
    place = "return {vim.fn.expand('%:t'), vim.fn.line('.'), vim.fn.col('.')}"
    check("definition", editor.wait_lua(place, lambda it: it[0] == "rules.yml"), ["rules.yml", 4, 13])
    editor.lua("vim.lsp.buf.references()")
    listed = (
        "local found = {} for _, it in ipairs(vim.fn.getqflist()) do"
        " table.insert(found, vim.fn.bufname(it.bufnr) .. ':' .. it.lnum) end return found"
    )
    check("references", editor.wait_lua(listed, bool), lambda it: sorted(it) == ["query.promql:1", "rules.yml:4", "rules.yml:8"])
    editor.keys(":cclose<CR>")
    editor.put_cursor("errors:rate5m")
    editor.lua("vim.lsp.buf.rename('job:faults:rate5m')")
    found = editor.wait("the new text", editor.text, lambda it: "faults" in it)
    check("rename in a rule file", found, RULES.replace("job:errors", "job:faults"))
    editor.keys(":write<CR>:buffer query.promql<CR>")
    check("rename in another file", editor.wait("the other file", editor.text, lambda it: "/ 2" in it), QUERY.replace("errors", "faults"))


def test_fixes(editor):
    """Code actions, by the menu that asks which one: the first one is chosen, and then the last."""
    text = RULES.replace('zone="west"', 'zone=~"west"')
    for choice in 1, "#actions":
        editor.edit(f"fix{choice == 1}.yml", text)
        editor.wait("a diagnostic", editor.diagnostics, lambda it: any("pattern" in str(found[4]) for found in it))
        editor.put_cursor("zone")
        editor.lua(f"vim.ui.select = function(actions, _, choose) choose(actions[{choice}]) end vim.lsp.buf.code_action()")
        check(f"the fix {choice}", editor.wait("the fix", editor.text, lambda it: it == RULES), RULES)
    editor.edit("fix.json", BOARD)
    editor.wait("a diagnostic", editor.diagnostics, bool)
    editor.put_cursor("zone")
    editor.lua("vim.ui.select = function(actions, _, choose) choose(actions[1]) end vim.lsp.buf.code_action()")
    fixed = BOARD.replace("=~", "=")
    check("a fix in a dashboard", editor.wait("the fix", editor.text, lambda it: it == fixed), fixed)
    editor.lua("vim.lsp.buf.formatting_sync(nil, 20000)")
    check("a dashboard is formatted", editor.text(), lambda it: '"sum by (job) (job:errors' in it)


def test_outline(editor):
    editor.edit("rules.yml", RULES)
    ready(editor)
    editor.lua("vim.lsp.buf.document_symbol()")
    listed = "local found = {} for _, it in ipairs(vim.fn.getloclist(0)) do table.insert(found, it.text) end"
    listed += " for _, it in ipairs(vim.fn.getqflist()) do table.insert(found, it.text) end return found"
    wanted = ["[Namespace] shop", "[Variable] job:errors:rate5m", "[Event] Errors"]
    check("symbols", editor.wait_lua(listed, lambda it: len(it) >= 3), wanted)
    editor.keys(":cclose<CR>:lclose<CR>")
    editor.put_cursor("errors:rate5m")
    editor.lua("vim.lsp.buf.document_highlight()")
    marks = "return #vim.api.nvim_buf_get_extmarks(0, vim.api.nvim_create_namespace('vim_lsp_references'), 0, -1, {})"
    check("highlights", editor.wait_lua(marks, bool), 2)
    editor.lua("vim.lsp.buf.clear_references()")
    found = editor.asked("textDocument/foldingRange", "{}")
    check("folds", [(it["startLine"], it["endLine"]) for it in found], [(1, 8), (3, 5), (6, 8)])


def test_folder(editor):
    """A name changes in files of the folder that are not open."""
    for name, text in ("other.yml", RULES), ("board.json", BOARD):
        (editor.folder / name).write_text(text, encoding="utf-8")
    editor.edit("query.promql", QUERY)
    ready(editor)
    editor.put_cursor("errors")
    editor.lua("vim.lsp.buf.rename('job:faults:rate5m')")
    check("rename here", editor.wait("the new name", editor.text, lambda it: "faults" in it), QUERY.replace("errors", "faults"))
    editor.keys(":wall<CR>")
    for name, text in ("other.yml", RULES), ("board.json", BOARD):
        read = lambda: (editor.folder / name).read_text(encoding="utf-8")  # noqa: E731
        check(f"rename in {name}", editor.wait("the file", read, lambda it: "faults" in it), text.replace("job:errors", "job:faults"))


def test_requests(editor):
    """What Neovim 0.7 has no command for."""
    editor.edit("selection.promql", 'sum(rate(a{b="c"}[5m]))\n')
    ready(editor)
    found = editor.asked("textDocument/selectionRange", "{positions = {{line = 0, character = 14}}}")[0]
    widths = []
    while found:
        widths.append(found["range"]["end"]["character"] - found["range"]["start"]["character"])
        found = found.get("parent")
    check("selection ranges", widths, [1, 3, 5, 7, 12, 14, 18, 20, 23, 0])
    found = editor.asked("textDocument/semanticTokens/full", "{}")["data"]
    wanted = [(0, 3, 0), (4, 4, 0), (5, 1, 6), (2, 1, 7), (1, 1, 2), (1, 3, 3), (5, 2, 5)]
    check("semantic tokens", found, [number for place, length, kind in wanted for number in (0, place, length, kind, 0)])
    check("an unknown method", editor.asked("textDocument/unheardOf", "{}"), lambda it: it["code"] == -32601)


def timed(editor, method, params, before=""):
    """The milliseconds of nine requests, each after a change."""
    return editor.lua(
        f"local times = {{}} for i = 1, 9 do {before} local params = {params}"
        " params.textDocument = vim.lsp.util.make_text_document_params(0) local begin = vim.loop.hrtime()"
        f" vim.lsp.buf_request_sync(0, {lua_text(method)}, params, 20000)"
        " table.insert(times, (vim.loop.hrtime() - begin) / 1e6) end return times"
    )


def test_times(editor, shows):
    """What the requests take in a file of 1,000 rules, as the editor sees it."""
    text = lsp_files.rule_file(1_000)
    editor.edit("large.yml", text)
    editor.edit("large.yml")
    ready(editor)
    lines = text.split("\n")
    line = next(number for number, it in enumerate(lines) if number > len(lines) // 2 and "rate(" in it)
    place = f"position = {{line = {line}, character = {lines[line].index('rate(') + 8}}}"
    whole = f"range = {{start = {{line = {line}, character = 0}}, ['end'] = {{line = {line + 40}, character = 0}}}}"
    change = f"vim.api.nvim_buf_set_text(0, {line}, {lines[line].index('rate(') + 7}, {line}, {lines[line].index('rate(') + 7}, {{'x'}})"
    # (until the file was read)
    editor.asked("textDocument/hover", f"{{{place}}}")
    requests = {
        "hover": f"{{{place}}}",
        "completion": f"{{{place}}}",
        "signatureHelp": f"{{{place}}}",
        "definition": f"{{{place}}}",
        "references": f"{{{place}, context = {{includeDeclaration = true}}}}",
        "rename": f"{{{place}, newName = 'another'}}",
        "selectionRange": f"{{positions = {{{place.partition(' = ')[2]}}}}}",
        "semanticTokens/range": f"{{{whole}}}",
        "semanticTokens/full": "{}",
        "documentSymbol": "{}",
        "foldingRange": "{}",
        "documentHighlight": f"{{{place}}}",
        "rangeFormatting": f"{{{whole.replace(str(line + 40), str(line + 1))}, options = {{tabSize = 2, insertSpaces = true}}}}",
    }
    for name, params in requests.items():
        for before, after in ("", ""), (change, ", after a change"):
            # (a machine that is busy with something else is asked again)
            for _ in range(ROUNDS):
                times = timed(editor, f"textDocument/{name}", params, before)
                median = statistics.median(times)
                most = MOST_OF_FOLDER if name == "rename" else MOST
                if median < most:
                    break
            if shows:
                print(f"{name}{after}: median {median:.1f} ms, greatest {max(times):.1f} ms")
            check(f"{name}{after}: {median:.1f} ms", median < most, True)
    times = timed(editor, "textDocument/formatting", "{options = {tabSize = 2, insertSpaces = true}}")
    if shows:
        print(f"formatting: median {statistics.median(times):.1f} ms, greatest {max(times):.1f} ms")


def main():
    with tempfile.TemporaryDirectory() as folder:
        editor = Editor(folder)
        try:
            tests = test_diagnostics, test_layout, test_telling, test_completion, test_navigation, test_fixes, test_outline, test_folder
            for test in (*tests, test_requests):
                test(editor)
                editor.keys("<Esc>:%bwipeout!<CR>")
            test_times(editor, "--times" in sys.argv[1:])
            servers, children, ended = editor.close()
            check("one server is started, and ends with the editor", (servers, children, ended), (1, 1, True))
        finally:
            if editor.process.poll() is None:
                editor.process.kill()
    return checks.end()


if __name__ == "__main__":
    sys.exit(main())
