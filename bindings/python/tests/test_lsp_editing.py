"""Tests of what the language server does beyond one query: fixes, outlines, names in folders, completion while one types, dashboards, and
the settings of a team."""

import json
import os
import shutil
import sys
import tempfile
import threading
import time
import unittest
from http.server import BaseHTTPRequestHandler, ThreadingHTTPServer
from itertools import count
from pathlib import Path
from urllib.parse import parse_qs, urlsplit

from command_line import run
from lsp_client import Client, Refused
from promql.lsp import messages
from promql.lsp.positions import Lines
from promql.queries import Edit, edited

try:
    import ruamel.yaml  # noqa: F401
except ImportError as error:
    raise unittest.SkipTest("there is no ruamel.yaml here") from error

HERE = Path(__file__).resolve().parent
ROOT = HERE.parents[2]
sys.path.append(str(ROOT / "bindings"))
import lsp_files  # noqa: E402

URI, BOARD, QUERY = "file:///rules.yml", "file:///board.json", "file:///query.promql"
RULES = """\
groups:
- name: shop
  rules:
  - record: job:up:sum
    expr: sum by (job) (up{job=~"shop"})
  - alert: Down
    expr: "job:up:sum{job=~\\"shop\\"} == 0"
    for: 5m
- name: other
  rules:
  - alert: Slow
    expr: |
      rate(
        job:up:sum{zone=~"west"}[5m]
      ) > 1
"""
PANELS = {
    "title": "All",
    "panels": [
        {"title": "Up", "targets": [{"expr": 'sum(up{job=~"shop",zone="$zone"})by(job)'}, {"expr": "job:up:sum"}]},
        {"title": "Rates", "targets": [{"expr": "rate(errors_total[$__rate_interval])"}]},
    ],
}
BOARD_TEXT = json.dumps(PANELS, indent=2) + "\n"
METHODS = ("documentSymbol", "foldingRange", "documentHighlight", "codeAction", "completion", "hover", "selectionRange")


def apply(text, edits):
    lines = Lines(text)
    return edited(text, [Edit(*lines.span(it["range"]), it["newText"]) for it in edits])


class Editing(unittest.TestCase):
    options, arguments = {"lint": True}, ()

    def setUp(self):
        self.versions = count(1)
        self.folder = Path(tempfile.mkdtemp()).resolve()
        self.addCleanup(shutil.rmtree, self.folder)
        self.client = Client(*self.arguments, options=self.options, folder=self.folder)

    def tearDown(self):
        self.assertEqual((self.client.close(), b"".join(self.client.said)), (0, b""))

    def open(self, text, uri=URI):
        language = {"promql": "promql", "json": "json"}.get(uri.rpartition(".")[2], "yaml")
        return self.client.open(uri, text, language, next(self.versions))

    def ask(self, method, uri=URI, **more):
        return self.client.request(f"textDocument/{method}", {"textDocument": {"uri": uri}, **more})

    def at(self, method, text, offset, uri=URI, **more):
        return self.ask(method, uri, position=Lines(text).position(offset), **more)

    def parts(self, text, ranges):
        return [text[slice(*Lines(text).span(it))] for it in ranges]

    def labels(self, text, uri=URI):
        """What is completed at the `|` of a text."""
        at = text.index("|CURSOR|")
        text = text.replace("|CURSOR|", "")
        self.open(text, uri)
        found = self.at("completion", text, at, uri)
        return [it["label"] for it in sorted(found["items"], key=lambda it: it.get("sortText", it["label"]))] if found else []


class Fixes(Editing):
    def actions(self, text, uri=URI, span=None, **context):
        whole = Lines(text).range(*(span or (0, len(text))))
        return self.ask("codeAction", uri, range=whole, context={"diagnostics": [], **context})

    def made(self, text, action):
        return apply(text, self.client.request("codeAction/resolve", action)["edit"]["changes"][action["data"]["uri"]])

    def test_each(self):
        """Each way to write a query has its fix, and after it the finding is gone."""
        self.open(RULES)
        found = self.actions(RULES, only=["quickfix"])
        self.assertEqual([it["title"][:9] for it in found], ["Fix P103:"] * 3)
        for action, (old, new) in zip(found, (('{job=~"', '{job="'), ('{job=~\\"', '{job=\\"'), ('{zone=~"', '{zone="'))):
            self.assertEqual(self.made(RULES, action), RULES.replace(old, new))
            self.assertEqual(action["diagnostics"][0]["code"], "P103")
        at = RULES.index("zone=~")
        (found,) = self.actions(RULES, span=(at, at), only=["quickfix"])
        self.assertIn("zone", found["title"])
        self.assertEqual(self.actions(RULES, span=(0, 1), only=["quickfix"]), [])

    def test_all(self):
        """Those of a file are what `promql-rules lint --fix` makes of it."""
        paths = [*sorted((ROOT / "bench/rules").rglob("*.y*ml"))[:12], *sorted((ROOT / "examples").rglob("*.y*ml"))[:6]]
        fixed = 0
        for name, text in [*((path.name, path.read_bytes().decode()) for path in paths), ("a.yml", RULES), ("b.json", BOARD_TEXT)]:
            path = self.folder / name
            path.write_bytes(text.encode())
            self.open(text, path.as_uri())
            found = self.actions(text, path.as_uri(), only=["source"])
            run("lint", "--fix", path)
            self.assertEqual(self.made(text, found[0]) if found else text, path.read_bytes().decode(), name)
            fixed += bool(found)
        self.assertGreater(fixed, 1)

    def test_of_a_query(self):
        text = 'sum(up{job=~"shop"}) # all\n'
        self.open(text, QUERY)
        one, every = self.actions(text, QUERY)
        self.assertEqual((one["kind"], every["kind"]), ("quickfix", "source.fixAll.promql"))
        for action in one, every:
            self.assertEqual(self.made(text, action), text.replace("=~", "="))
        for only, kinds in (["source.fixAll"], 1), (["source.fixAll.promql"], 1), (["refactor"], 0), (["source.organizeImports"], 0):
            self.assertEqual(len(self.actions(text, QUERY, only=only)), kinds)

    def test_of_a_dashboard(self):
        self.open(BOARD_TEXT, BOARD)
        one, every = self.actions(BOARD_TEXT, BOARD)
        for action in one, every:
            self.assertEqual(self.made(BOARD_TEXT, action), BOARD_TEXT.replace("job=~", "job="))

    def test_without_resolving(self):
        """An editor that never asks for the edits of an action is offered none."""
        client = Client(options=self.options, resolves=False)
        client.open(URI, RULES, "yaml")
        params = {"textDocument": {"uri": URI}, "range": Lines(RULES).range(0, len(RULES)), "context": {"diagnostics": []}}
        self.assertEqual(client.request("textDocument/codeAction", params), [])
        self.assertEqual(client.close(), 0)

    def test_while_one_types(self):
        """A fix is one of the text as it is, or none."""
        self.open(RULES)
        action = self.actions(RULES)[0]
        self.client.change(URI, next(self.versions), {"range": Lines(RULES).range(0, 0), "text": "# a\n"})
        with self.assertRaises(Refused) as caught:
            self.made(RULES, action)
        self.assertEqual(caught.exception.code, messages.CONTENT_MODIFIED)
        text = "# a\n" + RULES
        self.assertEqual(self.made(text, self.actions(text)[-1]), text.replace("=~", "="))

    def test_wrong_ones(self):
        self.open(RULES)
        action = self.actions(RULES)[0]
        data = action["data"]
        for wrong in (None, 1, {}, {**data, "number": "a"}, {**data, "uri": "file:///no.yml"}, {**data, "number": -2}):
            with self.assertRaises(Refused) as caught:
                self.client.request("codeAction/resolve", {**action, "data": wrong})
            self.assertEqual(caught.exception.code, messages.INVALID_PARAMS)
        numbers = {it["data"]["number"] for it in self.actions(RULES)}
        number = min({*range(5)} - numbers)
        for wrong, code in ({"number": 99}, messages.CONTENT_MODIFIED), ({"number": number}, messages.REQUEST_FAILED):
            with self.assertRaises(Refused) as caught:
                self.client.request("codeAction/resolve", {**action, "data": {**data, **wrong}})
            self.assertEqual(caught.exception.code, code)
        for params in {}, {"range": 1}, {"range": {"start": {"line": -1}}}:
            with self.assertRaises(Refused):
                self.ask("codeAction", **params)
        for text in "groups: [", "groups:\n- name: a\n  rules:\n  - record: b\n    expr: sum(\n", "":
            self.open(text)
            self.assertEqual(self.actions(text), [])


class Outlines(Editing):
    options = {"lint": False}

    def shown(self, text, symbols):
        lines = Lines(text)
        return [(it["name"], it["kind"], lines.span(it["range"]), self.shown(text, it.get("children", ()))) for it in symbols]

    def test_symbols(self):
        self.open(RULES)
        found = self.shown(RULES, self.ask("documentSymbol"))
        self.assertEqual([it[:2] for it in found], [("shop", 3), ("other", 3)])
        self.assertEqual([it[:2] for group in found for it in group[3]], [("job:up:sum", 13), ("Down", 24), ("Slow", 24)])
        for _, _, (start, end), inner in found:
            for _, _, place, _ in inner:
                self.assertTrue(start < place[0] < place[1] <= end)
        self.assertEqual(RULES[slice(*found[0][3][1][2])].strip(), RULES[RULES.index("- alert: Down") : RULES.index("\n- name: other")])

    def test_symbols_while_one_types(self):
        """After a change that is in a rule they are those of the new text."""
        self.open(RULES)
        at = RULES.index("sum by")
        text = RULES[:at] + "2 * " + RULES[at:]
        self.client.change(URI, next(self.versions), {"range": Lines(RULES).range(at, at), "text": "2 * "})
        moved = self.ask("documentSymbol")
        self.open(text)
        self.assertEqual(moved, self.ask("documentSymbol"))

    def test_panels(self):
        self.open(BOARD_TEXT, BOARD)
        found = self.shown(BOARD_TEXT, self.ask("documentSymbol", BOARD))
        self.assertEqual([(it[0], [inner[0] for inner in it[3]]) for it in found], [
            ("Up", ['sum(up{job=~"shop",zone="$zone"})by(job)', "job:up:sum"]),
            ("Rates", ["rate(errors_total[$__rate_interval])"]),
        ])

    def test_folds(self):
        self.open(RULES)
        found = [(it["startLine"], it["endLine"]) for it in self.ask("foldingRange")]
        self.assertEqual(found, [(1, 7), (3, 4), (5, 7), (8, 14), (10, 14), (12, 13)])
        text = "sum(\n  rate(\n    a[5m]\n  )\n)\n"
        self.open(text, QUERY)
        self.assertEqual([(it["startLine"], it["endLine"]) for it in self.ask("foldingRange", QUERY)], [(0, 3), (1, 2)])
        for uri, text in (QUERY, "sum(a)"), (URI, "a: 1\n"):
            self.open(text, uri)
            self.assertIsNone(self.ask("foldingRange", uri))

    def test_highlights(self):
        self.open(RULES)
        found = self.at("documentHighlight", RULES, RULES.index("job:up:sum{") + 1)
        self.assertEqual([it["kind"] for it in found], [3, 2, 2])
        self.assertEqual(self.parts(RULES, [it["range"] for it in found]), ["job:up:sum"] * 3)
        text = 'sum by (job) (rate(a{job="x"}[5m]) / rate(b{c="job"}[5m])) # job'
        self.open(text, QUERY)
        for offset, part, many in (9, "job", 2), (15, "rate", 2), (51, '"job"', 1):
            found = self.at("documentHighlight", text, offset, QUERY)
            self.assertEqual(self.parts(text, [it["range"] for it in found]), [part] * many)
        for offset in 13, len(text) - 1:
            self.assertIsNone(self.at("documentHighlight", text, offset, QUERY))
        self.assertIsNone(self.at("documentHighlight", RULES, 0))

    def test_selections(self):
        """They go on from the query to the rule, the group and the file."""
        self.open(RULES)
        (found,) = self.ask("selectionRange", positions=[Lines(RULES).position(RULES.index("zone"))])
        parts = []
        while found:
            parts += self.parts(RULES, [found["range"]])
            found = found.get("parent")
        self.assertEqual(parts[-1], RULES)
        self.assertEqual(parts[-3].strip(), RULES[RULES.index("- alert: Slow") :].strip())
        self.assertEqual(parts[-2].strip(), RULES[RULES.index("name: other") :].strip())
        self.assertTrue(all(inner in outer for inner, outer in zip(parts, parts[1:])))
        self.assertEqual(parts[0], "zone")


class Names(Editing):
    options = {"lint": False}

    def files(self, **texts):
        for name, text in texts.items():
            (self.folder / name.replace("_", ".")).write_text(text, encoding="utf-8")

    def renamed(self, new, text=RULES, uri=None):
        uri = uri or (self.folder / "open.yml").as_uri()
        self.open(text, uri)
        found = self.at("rename", text, text.index("job:up:sum") + 2, uri, newName=new)["changes"]
        return {os.path.basename(uri): edits for uri, edits in found.items()}

    def test_folder(self):
        """The rule is renamed with all that reads it: in what is open, and in what is not."""
        tests = "rule_files: [a.yml]\ntests:\n- promql_expr_test:\n  - expr: job:up:sum\n    eval_time: 1m\n"
        inner = "".join(f"    {line}\n" for line in RULES.splitlines())
        texts = {"a.yml": RULES, "b.rules": RULES.replace("record: job:up:sum", "record: a"), "c.json": BOARD_TEXT, "d.yml": tests}
        texts["map.yaml"] = f"apiVersion: v1\nkind: ConfigMap\nmetadata: {{name: a}}\ndata:\n  a.yml: |\n{inner}"
        texts["rules.json"] = json.dumps({"groups": [{"name": "a", "rules": [{"record": "job:up:sum", "expr": "job:up:sum"}]}]})
        for name, text in texts.items():
            (self.folder / name).write_text(text, encoding="utf-8")
        self.files(compose_yml="services: [job:up:sum]\n", other_json='{"a": "job:up:sum"}', text_txt="job:up:sum", half_yml="a: [job:up:sum")
        (self.folder / "open.yml").write_text("groups: [", encoding="utf-8")
        (self.folder / "link.yml").symlink_to(self.folder / "a.yml")
        found = self.renamed("job:up:total")
        self.assertEqual(sorted(found), sorted([*texts, "open.yml"]))
        for name, text in [*texts.items(), ("open.yml", RULES)]:
            new = text.replace("job:up:sum", "job:up:total")
            self.assertEqual(apply(text, found[name]), new)
            self.assertNotEqual(new, text)

    def test_refused(self):
        self.files(a_yml=RULES)
        for new in "", "a b", "a-b", "1a", "é", "inf", "on", 'a"', "a:", "null":
            with self.assertRaises(Refused) as caught:
                self.renamed(new)
            self.assertIn("not a name of a metric", str(caught.exception))
        for text, why in (
            ("groups: [job:up:sum", "a.yml: "),
            (RULES.replace("- alert: Slow", '- alert: "Slow'), "a.yml: "),
            (RULES.replace("record: job:up:sum", 'record: "job\\x3aup:sum"') + "    labels: {a: 'job:up:sum", "a.yml: "),
        ):
            self.files(a_yml=text)
            with self.assertRaises(Refused) as caught:
                self.renamed("total")
            self.assertEqual(caught.exception.code, messages.REQUEST_FAILED)
            self.assertIn(why, str(caught.exception))
        # more tokens, and larger patterns, than are looked at
        for query in "job:up:sum" + " + a" * 8_000, "job:up:sum{a=~'" + "|".join(f"{it}x*" for it in range(900)) + "'}":
            items = "".join(f"  - record: a{it}\n    expr: {query} + {it}\n" for it in range(8))
            self.files(a_yml="groups:\n- name: a\n  rules:\n" + items)
            with self.assertRaises(Refused) as caught:
                self.renamed("total")
            self.assertIn("a.yml: ", str(caught.exception))

    def test_no_folder(self):
        for folder in None, self.folder / "none":
            self.client.close()
            self.client = Client(options=self.options, folder=folder)
            self.assertEqual([*self.renamed("total")], ["open.yml"])

    def test_large_folder(self):
        """What does not have the name is not read."""
        for number in range(300):
            (self.folder / f"{number}.json").write_text(json.dumps({"a": "b" * 20_000}), encoding="utf-8")
        self.files(large_json=json.dumps({"a": "b" * 9_000_000}), a_yml=RULES)
        self.renamed("total")
        begin = time.monotonic()
        self.assertEqual(sorted(self.renamed("total")), ["a.yml", "open.yml"])
        self.assertLess(time.monotonic() - begin, 10)
        self.files(large_json=json.dumps({"expr": "job:up:sum" + "b" * 9_000_000}))
        with self.assertRaises(Refused) as caught:
            self.renamed("total")
        self.assertIn("large.json: larger than", str(caught.exception))


class Typing(Editing):
    options = {"lint": False}
    begin = "groups:\n- name: a\n  rules:\n  - record: b\n    expr: "
    end = "\n  - record: c\n    expr: errors_total{zone='west'}\n"

    def written(self, text, end=None):
        return self.labels(self.begin + text + (self.end if end is None else end))

    def test_half_a_word(self):
        """What is being written is not offered."""
        for text, word in (("up + err|CURSOR|", "err"), ("err|CURSOR|ors_x", "errors_x"), ("sum by (zo|CURSOR|) (a)", "zo"), ("a{b='we|CURSOR|'}", "we")):
            self.assertNotIn(word, self.written(text), text)
            self.open("", URI)
            self.assertNotIn(word, self.labels(text, QUERY), text)
            self.open("", QUERY)
        self.assertIn("errors_total", self.written("up + err|CURSOR|"))
        self.assertIn("west", self.written("a{zone='we|CURSOR|'}"))
        self.assertIn("err", self.labels("err + err|CURSOR|", QUERY))

    def test_empty(self):
        """Where a rule has no query yet."""
        for text in ("|CURSOR|", "  |CURSOR|", "|\n      |CURSOR|", ">-\n\n        |CURSOR|", "|2-  # all\n      |CURSOR|", "\n      |CURSOR|"):
            for end in (self.end, "\n    for: 5m" + self.end, ""):
                found = self.written(text, end)
                self.assertIn("rate", found, text)
                self.assertEqual("errors_total" in found, bool(end), text)
        for text in "|CURSOR| # no", "a\n    for: |CURSOR|", "|\n  |CURSOR|", "a\n    labels:\n      |CURSOR|":
            self.assertEqual("rate" in self.written(text), "#" in text, text)

    def test_open_quotes(self):
        """While the file cannot be read."""
        self.open("errors_total{zone='west'}", "file:///other.promql")
        for text in ("'ra|CURSOR|", '"ra|CURSOR|', '"sum(ra|CURSOR|', "'a{b=''c''} + ra|CURSOR|", '"a{b=\\"c\\"} + ra|CURSOR|', "{b='c'} + ra|CURSOR|"):
            self.assertIn("rate", self.written(text), text)
        for text in ("'errors_total{|CURSOR|", '"errors_total{|CURSOR|', '"errors_total{a=\\"b\\",|CURSOR|', "errors_total{a='b',|CURSOR|"):
            self.assertIn("zone", self.written(text), text)
        for text in ('"errors_total{zone=\\"we|CURSOR|', "'errors_total{zone=\"|CURSOR|", "errors_total{zone='|CURSOR|"):
            self.assertIn("west", self.written(text), text)
        board = BOARD_TEXT.replace('"job:up:sum"', '"job:up:sum + ra|CURSOR|')
        self.assertIn("rate", self.labels(board, BOARD))
        self.assertEqual(self.labels('services:\n  expr: "ra|CURSOR|', "file:///compose.yml"), [])
        hover = self.begin + "'rate(" + self.end
        self.open(hover)
        self.assertIn("How fast", self.at("hover", hover, hover.index("rate") + 1)["contents"]["value"])

    def test_open_quote_in_a_large_file(self):
        """A key waits for no reading of the file."""
        text = lsp_files.rule_file(400) + self.begin[self.begin.index("  - record") :] + "\n"
        self.open(text)
        at = len(text) - 1
        self.client.change(URI, next(self.versions), {"range": Lines(text).range(at, at), "text": "'sum(rat"})
        version = next(self.versions)
        text = text[:at] + "'sum(rate\n"
        self.client.change(URI, version, {"range": Lines(text).range(at + 8, at + 8), "text": "e"})
        self.assertIn("rate", [it["label"] for it in self.at("completion", text, at + 9)["items"]])
        self.assertNotEqual(self.client.diagnostics[URI][0], version)
        self.client.wait_for_diagnostics(URI, version)

    def test_units(self):
        for text, wanted, unwanted in (
            ("a[5|CURSOR|", ["5s", "5m", "5ms"], ["5", "rate"]),
            ("rate(a[5|CURSOR|])", ["5m", "5h", "5y"], ["1h"]),
            ("a[1h3|CURSOR|]", ["1h3m", "1h3s"], ["1h3d", "1h3h"]),
            ("a[1h:5|CURSOR|]", ["5m"], []),
            ("a offset 5|CURSOR|", ["5m"], []),
            ("a + 5|CURSOR|", [], ["5m"]),
            ("a{b='5|CURSOR|'}", [], ["5m"]),
        ):
            found = self.labels(text, QUERY)
            self.assertEqual([it for it in wanted if it not in found] + [it for it in unwanted if it in found], [], text)
        text = "rate(a[5])"
        self.open(text, QUERY)
        item = next(it for it in self.at("completion", text, 8, QUERY)["items"] if it["label"] == "5m")
        self.assertEqual(apply(text, [item["textEdit"]]), "rate(a[5m])")

    def test_labels_of_the_metric(self):
        """They come before all others."""
        for name, text in ("x", "a{x='1'}"), ("y", "b{y='1'} / c"), ("z", "sum by (z) (d)"):
            self.open(text, f"file:///{name}.promql")
        for text, first in ("a{|CURSOR|", "x"), ("b{|CURSOR|", "y"), ("d{|CURSOR|}", "z"), ("sum by (|CURSOR|) (b)", "y"):
            self.assertEqual(self.labels(text, QUERY)[0], first, text)

    def test_anywhere(self):
        """No place of a text ends the server, and none takes long."""
        for text in (self.begin + "'a" + self.end, self.begin + "\n\n" + self.end, BOARD_TEXT[:-40], "expr: |", "groups:\nexpr:\n "):
            uri = BOARD if text[0] == "{" else URI
            self.open(text, uri)
            for offset in range(0, len(text) + 1, 3):
                self.at("completion", text, offset, uri)
        self.open(RULES)
        self.assertIsNone(self.ask("completion", position={"line": 10**9, "character": 10**9}))


class Boards(Editing):
    def test_diagnostics(self):
        text = BOARD_TEXT.replace("job:up:sum", "sum(job:up:sum")
        found = self.open(text, BOARD)
        self.assertEqual(sorted((it.get("code", ""), self.parts(text, [it["range"]])[0][:8]) for it in found)[-1], ("P103", 'job=~\\"s'))
        self.assertEqual([it["severity"] for it in found if "code" not in it], [1])
        for text in '{"expr": ', '{"a": 1}', "[]", "", '{"panels": []}':
            found = self.open(text, BOARD)
            self.assertEqual(len(found), text == '{"expr": ', text)

    def test_telling(self):
        """Variables are shown as the file has them."""
        self.open(BOARD_TEXT, BOARD)
        told = self.at("hover", BOARD_TEXT, BOARD_TEXT.index("up{"), BOARD)["contents"]["value"]
        self.assertIn('`zone` is `"$zone"`', told)
        self.assertIn("How fast", self.at("hover", BOARD_TEXT, BOARD_TEXT.index("rate(") + 1, BOARD)["contents"]["value"])
        self.open("a", QUERY)
        names = [it["label"] for it in self.at("completion", "a", 1, QUERY)["items"]]
        self.assertEqual([it for it in names if it not in ("a",) and "x" in it and "_" not in it and it not in ("max", "exp", "max_of", "maxk")], [])

    def test_layout(self):
        """It is that of `promql-rules format`."""
        path = self.folder / "a.json"
        path.write_text(BOARD_TEXT, encoding="utf-8")
        self.open(BOARD_TEXT, BOARD)
        wanted = run("format", path).out
        self.assertNotEqual(wanted, BOARD_TEXT)
        self.assertEqual(apply(BOARD_TEXT, self.ask("formatting", BOARD, options={})), wanted)
        part = Lines(BOARD_TEXT).range(BOARD_TEXT.index("Rates"), len(BOARD_TEXT))
        self.assertEqual(self.ask("rangeFormatting", BOARD, range=part, options={}), [])

    def test_navigation(self):
        self.open(RULES)
        self.open(BOARD_TEXT, BOARD)
        (found,) = self.at("definition", BOARD_TEXT, BOARD_TEXT.index("job:up:sum"), BOARD)
        self.assertEqual(found["uri"], URI)
        changes = self.at("rename", RULES, RULES.index("job:up:sum"), newName="total")["changes"]
        self.assertEqual(apply(BOARD_TEXT, changes[BOARD]), BOARD_TEXT.replace("job:up:sum", "total"))

    def test_rules_in_json(self):
        text = json.dumps({"groups": [{"name": "a", "rules": [{"record": "b", "expr": "sum("}]}]})
        (found,) = self.open(text, BOARD)
        self.assertIn("unclosed", found["message"])


class Large(Editing):
    def test_a_mebibyte(self):
        """Each request is answered, and soon, for what is as large as that."""
        rules = "groups:\n- name: a\n  rules:\n" + "".join(f"  - record: a{it}\n    expr: 'sum(a{it})'\n" for it in range(9_000))
        texts = {
            "lines.yml": rules + "#" * (2**20 - len(rules)),
            "blank.yml": "groups:\n- rules:\n  - expr: " + " " * 2**20,
            "keys.yml": "groups: [" + "expr:," * 2**17,
            "minus.yml": "groups:\n" + "- " * 2**19,
            "board.json": json.dumps({"panels": [{"title": "a", "targets": [{"expr": "a"}] * 30_000}]}),
            "open.json": '{"expr": "' + "a " * 2**19,
            "query.promql": "a + " * 2**18,
        }
        for name, text in texts.items():
            uri = f"file:///{name}"
            self.open(text, uri)
            for offset in 0, len(text) // 2, len(text):
                position = Lines(text).position(offset)
                for method in METHODS:
                    begin = time.monotonic()
                    try:
                        place = {"start": position, "end": position}
                        self.ask(method, uri, position=position, positions=[position], range=place, context={"diagnostics": []})
                    except Refused as refused:
                        self.assertEqual(refused.code, messages.CONTENT_MODIFIED)
                    self.assertLess(time.monotonic() - begin, 3, (name, method, offset))

    def test_no_file(self):
        for method in METHODS:
            with self.assertRaises(Refused) as caught:
                self.ask(method, "file:///none.yml", position={"line": 0, "character": 0}, positions=[], range={}, context={})
            self.assertEqual(caught.exception.code, messages.INVALID_PARAMS)

    def test_past_the_end(self):
        self.open(RULES)
        far = {"line": 10**9, "character": 10**9}
        for method in METHODS:
            self.ask(method, position=far, positions=[far], range={"start": far, "end": far}, context={"diagnostics": []})


class Teams(Editing):
    @staticmethod
    def codes(found):
        return {it["code"] for it in found} & {"P103", "P104"}

    def test_codes(self):
        """The linter looks for what the team asks for, and the layout is that of the team."""
        path = self.folder / "a.yml"
        for settings, wanted in (
            ("", {"P103"}),
            ('ignore = ["P1"]', set()),
            ('select = ["P2"]', set()),
            ('[[paths]]\nfiles = ["a.yml"]\nignore = ["P103"]', set()),
            ('[[paths]]\nfiles = ["b.yml"]\nignore = ["P103"]', {"P103"}),
            ('exclude = ["a.yml"]', set()),
        ):
            (self.folder / ".promql.toml").write_text(settings, encoding="utf-8")
            self.assertEqual(self.codes(self.open(RULES, path.as_uri())), wanted, settings)
            found = self.open('up{a=~"b"}', (self.folder / "a.promql").as_uri())
            self.assertEqual(self.codes(found), wanted or ({"P103"} if "yml" in settings else set()), settings)
        (self.folder / ".promql.toml").write_text("width = 30", encoding="utf-8")
        self.open(RULES, path.as_uri())
        path.write_text(RULES, encoding="utf-8")
        self.assertEqual(apply(RULES, self.ask("formatting", path.as_uri(), options={})), run("format", path).out)

    def test_wrong_settings(self):
        (self.folder / ".promql.toml").write_text("widht = 1", encoding="utf-8")
        path = self.folder / "a.yml"
        found = self.open(RULES, path.as_uri())
        self.assertIn("no setting is called `widht`", found[0]["message"])
        self.assertEqual(self.codes(found[1:]), {"P103"})

    def test_other_files(self):
        for uri in "untitled:Untitled-1", "file://elsewhere/a.yml", "http://[", "file:///" + "a/" * 3_000, "file:///a%00b.yml":
            self.assertEqual(self.codes(self.open(RULES, uri)), {"P103"}, uri)


class Server(BaseHTTPRequestHandler):
    """A Prometheus, as far as it is asked."""

    asked = []
    delay = 0.0
    answers = {
        ("/api/v1/label/__name__/values", ""): ["served_total", "other"],
        ("/api/v1/labels", ""): ["__name__", "job", "zone", "far"],
        ("/api/v1/labels", "served_total"): ["__name__", "zone"],
        ("/api/v1/label/zone/values", ""): ["west", "east"],
        ("/api/v1/label/zone/values", "served_total"): ["west"],
        ("/api/v1/metadata", "served"): {"served": [{"type": "counter", "help": "How *many* were\n[served](http://x).", "unit": ""}]},
    }

    def do_GET(self):
        parts = urlsplit(self.path)
        query = parse_qs(parts.query)
        self.asked.append(self.path)
        time.sleep(self.delay)
        data = self.answers.get((parts.path, *query.get("match[]", query.get("metric", [""]))), [])
        body = json.dumps({"status": "success", "data": data}).encode()
        self.send_response(200)
        self.send_header("Content-Length", str(len(body)))
        self.end_headers()
        self.wfile.write(body)

    def log_message(self, *_):
        pass


class Served(Editing):
    def setUp(self):
        Server.asked, Server.delay = [], 0.0
        self.server = ThreadingHTTPServer(("127.0.0.1", 0), Server)
        threading.Thread(target=self.server.serve_forever, daemon=True).start()
        self.addCleanup(self.server.server_close)
        self.addCleanup(self.server.shutdown)
        self.arguments = ("--prometheus", f"http://127.0.0.1:{self.server.server_port}")
        super().setUp()

    def test_names(self):
        """The first answer has what the server tells soon."""
        self.assertIn("served_total", self.labels("ser|CURSOR|", QUERY))
        found = self.labels("served_total{|CURSOR|", QUERY)
        self.assertEqual((found[0], {*found} >= {"zone", "job", "far"}), ("zone", True))
        self.assertEqual(self.labels('served_total{zone="|CURSOR|"}', QUERY), ["west"])
        self.assertEqual(self.labels('{zone="|CURSOR|"}', QUERY), ["east", "west"])
        self.assertEqual(self.labels("sum by (|CURSOR|) (served_total)", QUERY)[0], "zone")

    def test_help(self):
        self.open("rate(served_total[5m])", QUERY)
        told = self.at("hover", "rate(served_total[5m])", 8, QUERY)["contents"]["value"]
        self.assertIn(r"On the server: counter\. How \*many\* were \[served\]\(http\:\/\/x\)\.", told)
        self.open("other", QUERY)
        self.assertNotIn("On the server", self.at("hover", "other", 2, QUERY)["contents"]["value"])

    def test_slow_server(self):
        """A server that is slow holds up no key: what is not told yet is left out, and asked for again."""
        Server.delay = 1.0
        self.open("ser", QUERY)
        number = self.client.begin("textDocument/completion", {"textDocument": {"uri": QUERY}, "position": {"line": 0, "character": 3}})
        begin = time.monotonic()
        self.at("signatureHelp", "ser", 3, QUERY)
        self.assertLess(time.monotonic() - begin, 0.25)
        self.assertTrue(self.client.result(number)["isIncomplete"])
        self.assertLess(time.monotonic() - begin, 1.0)
        time.sleep(2.5)
        self.assertIn("served_total", self.labels("ser|CURSOR|", QUERY))

    def test_bounds(self):
        """A server is asked for each thing once, and no more than so often in a minute."""
        for _ in range(3):
            self.labels("served_total{|CURSOR|", QUERY)
        self.assertEqual(len(Server.asked), len({*Server.asked}))
        for number in range(150):
            self.labels(f"metric_{number}{{|CURSOR|", QUERY)
        self.assertLessEqual(len(Server.asked), 120)


if __name__ == "__main__":
    unittest.main()
