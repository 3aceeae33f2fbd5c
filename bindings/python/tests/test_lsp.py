"""Tests of the language server: its messages, and what it answers about queries."""

import io
import json
import random
import re
import subprocess
import sys
import threading
import time
import unittest
from http.server import BaseHTTPRequestHandler, HTTPServer
from pathlib import Path

import promql
from lsp_client import Client, Refused
from promql.lint import table
from promql.lsp import findings, messages
from promql.lsp.functions import AGGREGATIONS, FUNCTIONS, WORDS
from promql.lsp.hover import type_of
from promql.lsp.positions import Lines
from promql.lsp.prometheus import NotHere, Prometheus

ROOT = Path(__file__).resolve().parents[3]
URI = "file:///query.promql"
# Links go to the guide of a checkout: a package that pip installed has none.
IS_CHECKOUT = ROOT in Path(promql.__file__).resolve().parents


class WithServer(unittest.TestCase):
    """A query in which `|` is the place of the cursor."""

    def setUp(self):
        self.client = Client()
        self.version = 0

    def tearDown(self):
        self.assertEqual(self.client.close(), 0)
        self.assertEqual(b"".join(self.client.said), b"")

    def open(self, text):
        self.version += 1
        return self.client.open(URI, text, version=self.version)

    def ask(self, method, text, **more):
        at = text.index("|")
        text = text[:at] + text[at + 1 :]
        self.open(text)
        position = Lines(text).position(at)
        return self.client.at(method, URI, position["line"], position["character"], **more)

    def labels(self, text):
        found = self.ask("completion", text)
        return [item["label"] for item in found["items"]] if found else []

    def part(self, text, found):
        """The part of the text that a range has, and its bounds are in UTF-16."""
        lines = Lines(text.replace("|", ""))
        return lines.text[lines.offset(found["start"]) : lines.offset(found["end"])]


class Diagnostics(WithServer):
    def test_rejected(self):
        (found,) = self.open('rate(foo{a="𝄞é"}) + 1')
        self.assertEqual(found["message"], "expected type matrix in call to function 'rate', got vector")
        self.assertEqual(found["range"], {"start": {"line": 0, "character": 5}, "end": {"line": 0, "character": 17}})
        self.assertEqual((found["severity"], found["source"]), (1, "promql"))

    def test_accepted(self):
        for text in ("up", "", "\n", "# a\nup\n", "sum by (a) (b)\r\n/ 2"):
            self.assertEqual(self.open(text), [], text)

    def test_lines(self):
        (found,) = self.open("up\r\n+ foo(")
        self.assertEqual(found["range"]["start"]["line"], 1)

    def test_rows(self):
        """The places are those of the library."""
        for text in (ROOT / "bench/queries/queries.txt").read_text(encoding="utf-8").splitlines():
            for at in range(0, len(text), 7):
                cut = text[:at]
                found = self.open(cut)
                try:
                    promql.check(cut)
                    self.assertEqual(found, [])
                except promql.QueryError as error:
                    if cut.strip():
                        self.assertEqual(found[0]["range"], Lines(cut).range(error.start, error.end))
                        self.assertEqual(found[0]["message"], error.message)

    def test_limits(self):
        """A query over the limits of the library has its error, and nothing else."""
        text = "a+" * 20_000 + "a"
        (found,) = self.open(text)
        self.assertIn("32768", found["message"].replace(",", "").replace(" ", ""))
        for method in ("hover", "completion", "signatureHelp", "definition", "references"):
            self.client.at(method, URI, 0, 30_000)
        with self.assertRaises(Refused):
            self.client.request("textDocument/formatting", {"textDocument": {"uri": URI}, "options": {}})

    def test_long_and_deep(self):
        """What is long or nested is told of within bounds, whether the library takes it or not."""
        for text in (
            "a+" * 16_000 + "a",
            "a+" * 500 + "a",
            "-" * 30_000 + "a",
            "(" * 30_000,
            "(" * 90 + "a" + ")" * 90,
            "sum by (b) (" * 90 + "a" + ")" * 90,
            "sum by (b) (" * 300 + "a" + ")" * 300,
            "a{" + 'b="c",' * 5_000 + "}",
            "a[" * 10_000,
            '"' * 30_001,
            "f(" * 10_000,
            ",".join("ab" for _ in range(10_000)),
        ):
            self.open(text)
            for character in (0, len(text) // 2, len(text)):
                for method in ("hover", "completion", "signatureHelp", "references", "prepareRename"):
                    self.client.at(method, URI, 0, character, context={})
                params = {"textDocument": {"uri": URI}, "positions": [{"line": 0, "character": character}]}
                self.client.request("textDocument/selectionRange", params)
            self.client.request("textDocument/semanticTokens/full", {"textDocument": {"uri": URI}})

    def test_closed(self):
        self.open("(")
        self.client.notify("textDocument/didClose", {"textDocument": {"uri": URI}})
        while self.client.diagnostics[URI][1]:
            self.client.take()
        with self.assertRaises(Refused) as caught:
            self.client.at("hover", URI, 0, 0)
        self.assertEqual(caught.exception.code, messages.INVALID_PARAMS)


class Edits(WithServer):
    def test_changes(self):
        """Changes of parts, in UTF-16, make the text that an editor has."""
        chance = random.Random(2)
        text, version = "sum(foo)\n", 1
        self.client.open(URI, text)
        for _ in range(300):
            lines = Lines(text)
            start, end = sorted(chance.randrange(len(text) + 1) for _ in range(2))
            end = min(end, start + 4)
            new = chance.choice(["a", "𝄞", "\n", "\r\n", "é(", '"', " + b", "", "{x="])
            whole = lines.range(start, end)
            # (no position is between the two characters of a line end)
            start, end = lines.offset(whole["start"]), lines.offset(whole["end"])
            text, version = text[:start] + new + text[end:], version + 1
            self.client.change(URI, version, {"range": lines.range(start, end), "text": new})
            found = self.client.wait_for_diagnostics(URI, version)
            try:
                promql.check(text)
                wanted = []
            except promql.QueryError as error:
                wanted = [(error.message, Lines(text).range(error.start, error.end))] if text.strip() else []
            self.assertEqual([(it["message"], it["range"]) for it in found], wanted, text)

    def test_layout(self):
        edits = self._edits("formatting", "sum(rate(foo[5m]))by(job)\n")
        self.assertEqual(edits, ["sum by (job) (rate(foo[5m]))\n"])
        self.assertEqual(self._edits("formatting", "up"), [])
        self.assertEqual(self._edits("formatting", "# all\nsum(a)by(b)  # one\n"), ["# all\nsum by (b) (a) # one\n"])
        with self.assertRaises(Refused) as caught:
            self._edits("formatting", "up +")
        self.assertEqual(caught.exception.code, messages.REQUEST_FAILED)

    def test_layout_of_part(self):
        text = "a  +  sum(rate(foo[5m]))by(job)"
        part = Lines(text).range(text.index("sum"), text.index(")by"))
        self.assertEqual(self._edits("rangeFormatting", text, range=part), ["sum by (job) (rate(foo[5m]))"])
        text = "abs(\n    sum( # all\n  rate(foo[5m]))by(job)\n)"
        part = Lines(text).range(text.index("sum"), text.index(")by"))
        self.assertEqual(self._edits("rangeFormatting", text, range=part), ["sum( # all\n      rate(foo[5m])\n    ) by (job)"])

    def _edits(self, method, text, **more):
        self.open(text)
        found = self.client.request(f"textDocument/{method}", {"textDocument": {"uri": URI}, "options": {}, **more})
        return [edit["newText"] for edit in found]


class Linting(unittest.TestCase):
    def found(self, text, *arguments, options=None):
        client = Client(*arguments, options=options)
        found = client.open(URI, text)
        self.assertEqual((client.close(), b"".join(client.said)), (0, b""))
        return found

    def test_findings(self):
        text = 'rate(up{job=~"shop"}[5m])'
        (finding,) = self.found(text)
        self.assertEqual((finding["code"], finding["severity"]), ("P103", 2))
        self.assertEqual(finding["range"], Lines(text).range(text.index("job"), text.index("}")))
        self.assertEqual("codeDescription" in finding, IS_CHECKOUT)
        self.assertEqual(self.found(text + " # promql: ignore P103"), [])

    @unittest.skipUnless(IS_CHECKOUT, "no guide beside the package")
    def test_links(self):
        (finding,) = self.found('rate(up{job=~"shop"}[5m])')
        page, _, heading = finding["codeDescription"]["href"].partition("#")
        self.assertEqual((Path(page[len("file://") :]), heading), (ROOT / "docs/guide/lint.md", "p103-pattern-of-one-text"))

    @unittest.skipUnless(IS_CHECKOUT, "no guide beside the package")
    def test_each_rule_has_its_heading(self):
        headings = re.findall(r"^### (.+)$", (ROOT / "docs/guide/lint.md").read_text(), re.M)
        anchors = {heading.lower().replace(" ", "-") for heading in headings}
        self.assertEqual({findings.page_of(code).partition("#")[2] for code in table.RULES}, anchors)
        self.assertEqual((findings.page_of(""), findings.page_of("P001")), ("", ""))

    def test_rejected(self):
        (error,) = self.found('up{job=~"shop"} +')
        self.assertEqual((error["severity"], "code" in error), (1, False))

    def test_off(self):
        text = 'up{job=~"shop"}'
        self.assertEqual(len(self.found(text, options={"lint": "?"})), 1)
        self.assertEqual(self.found(text, options={"lint": False}), [])
        self.assertEqual(self.found(text, "--no-lint"), [])
        self.assertEqual(len(self.found(text, "--no-lint", options={"lint": True})), 1)


class Telling(WithServer):
    def test_hover(self):
        for text, part, told in (
            ("sum(ra|te(foo[5m]))", "rate", "How fast a counter grew"),
            ("s|um(rate(foo[5m]))", "sum", "The sum of the samples"),
            ("sum b|y (a) (b)", "by", "keeps these labels"),
            ("a un|less b", "unless", "the left side which have none"),
            ('fo|o{a="b",c!~"d"}', 'foo{a="b",c!~"d"}', 'Selects the series of `foo`, where\n- `a` is `"b"`\n- `c` does not match'),
            ('{"fo|o"}', '{"foo"}', "Selects the series of `foo`."),
            ("f|oo[5m] offset 1d", "foo[5m] offset 1d", "range vector"),
            ("1 +| 2", "1 + 2", "Type: scalar."),
            ("a >| 2", "a > 2", "Type: instant vector."),
            ("-|(1)", "(1)", "Type: scalar."),
            ("max_over_time(foo[5m:1|m])", "foo[5m:1m]", "Type: range vector."),
        ):
            found = self.ask("hover", text)
            self.assertIn(told, found["contents"]["value"])
            self.assertEqual(self.part(text, found["range"]), part, text)
        for text in ("a # al|l", "|", "a |   "):
            self.assertIsNone(self.ask("hover", text), text)

    def test_types(self):
        """The types that are told are those that the library's messages have."""
        names = {"instant vector": "vector", "range vector": "matrix", "scalar": "scalar", "string": "string"}
        for query in ("1", "a", "a[1m]", "'x'", "-a", "(1)", "a+1", "1+1", "time()", "sum(a)", "rate(a[1m])", "a[1m:]", "scalar(a)", "-1"):
            found = type_of(promql.parse(query))
            try:
                promql.check(f"{'vector' if found == 'instant vector' else 'rate'}({query})")
                told = "matrix"
            except promql.QueryError as error:
                told = re.search(r"got (\w+)", error.message)[1]
            self.assertEqual(names[found], told, query)

    def test_signatures(self):
        for text, label, active in (
            ("rate(|", "rate(range: matrix): vector", 0),
            (
                "label_replace(a, 'b',| ",
                "label_replace(v: vector, target: string, replacement: string, source: string, pattern: string): vector",
                2,
            ),
            (
                "label_join(a, 'b', ',', 'c', |'d')",
                "label_join(v: vector, target: string, separator: string, [source: string, ..]): vector",
                3,
            ),
            ("topk by (a) (3, |b)", "topk(k: scalar, v: vector): vector", 1),
            ("sum(rate(a{b='(',c|", "rate(range: matrix): vector", 0),
            ("abs(a, |", "abs(v: vector): vector", 1),
        ):
            found = self.ask("signatureHelp", text)
            self.assertEqual(found["signatures"][0]["label"], label, text)
            self.assertEqual(found["activeParameter"], active, text)
        first, last = found["signatures"][0]["parameters"][0]["label"]
        self.assertEqual(label[first:last], "v: vector")
        for text in ("a + |", "foo(|", "sum by (|a) (b)"):
            self.assertIsNone(self.ask("signatureHelp", text), text)

    def test_selections(self):
        text = 'sum by (a) (rate(foo{b="c d"}[5m])) / 2'
        self.open(text)
        place = Lines(text).position(text.index(" d"))
        (found,) = self.client.request("textDocument/selectionRange", {"textDocument": {"uri": URI}, "positions": [place]})
        parts = []
        while found:
            parts.append(self.part(text, found["range"]))
            found = found.get("parent")
        self.assertEqual(
            parts,
            [
                "c d",
                '"c d"',
                'b="c d"',
                '{b="c d"}',
                'foo{b="c d"}[5m]',
                '(foo{b="c d"}[5m])',
                'rate(foo{b="c d"}[5m])',
                '(rate(foo{b="c d"}[5m]))',
                'sum by (a) (rate(foo{b="c d"}[5m]))',
                text,
            ],
        )

    def test_colours(self):
        text = 'sum by (job) (rate(foo{a=~"𝄞x", or="y"}[5m]))\n  > on(b) 1.5 # end'
        self.open(text)
        types = self.client.capabilities["semanticTokensProvider"]["legend"]["tokenTypes"]
        data = self.client.request("textDocument/semanticTokens/full", {"textDocument": {"uri": URI}})["data"]
        line = character = 0
        found = []
        for at in range(0, len(data), 5):
            line, character = line + data[at], data[at + 1] + (character if data[at] == 0 else 0)
            start, end = ({"line": line, "character": character + more} for more in (0, data[at + 2]))
            found.append((self.part(text, {"start": start, "end": end}), types[data[at + 3]]))
        self.assertEqual(
            found,
            [
                ("sum", "function"),
                ("by", "keyword"),
                ("job", "property"),
                ("rate", "function"),
                ("foo", "variable"),
                ("a", "property"),
                ("=~", "operator"),
                ('"𝄞x"', "regexp"),
                ("or", "property"),
                ("=", "operator"),
                ('"y"', "string"),
                ("5m", "number"),
                (">", "operator"),
                ("on", "keyword"),
                ("b", "property"),
                ("1.5", "number"),
                ("# end", "comment"),
            ],
        )


class Completions(WithServer):
    def test_functions(self):
        found = self.ask("completion", "sum(ra|")
        (rate,) = [item for item in found["items"] if item["label"] == "rate"]
        self.assertEqual(rate["textEdit"]["newText"], "rate(${1:range})$0")
        self.assertEqual(rate["insertTextFormat"], 2)
        self.assertEqual(self.part("sum(ra|", rate["textEdit"]["range"]), "ra")
        self.assertNotIn("sum", [item["label"] for item in found["items"]])

    def test_places(self):
        for text, wanted, unwanted in (
            ("|", ["rate", "sum"], ["and", "by"]),
            ("foo |", ["and", "or", "unless", "offset"], ["rate", "by"]),
            ("sum |", ["by", "without"], ["rate"]),
            ("sum(foo) |", ["by", "without", "and"], ["rate"]),
            ("foo == |", ["bool", "on", "ignoring", "rate", "foo"], ["by"]),
            ("foo + |", ["on", "ignoring", "rate"], ["bool"]),
            ("foo + on (a) |", ["group_left", "group_right", "rate"], ["by"]),
            ("foo[|", ["5m", "1h"], ["rate", "foo"]),
            ("foo[5m] |", ["smoothed", "anchored"], ["rate"]),
            ("foo offset |", ["5m"], ["rate"]),
            ("foo @ |", ["start()", "end()"], ["rate"]),
            ("foo{|", ["__name__"], ["rate", "foo"]),
            ("foo{a |", ["=", "!=", "=~", "!~"], ["rate"]),
            ('foo{a="b", |} + foo{c="d"}', ["a", "c"], ["rate", "foo"]),
            ('foo{a="|"} + bar{a="b"}', ["b"], ["rate", "foo"]),
            ('foo{a=|} + bar{a="b"}', ['"b"'], ["rate"]),
            ('{"|"} + foo', ["foo"], ["rate"]),
            ("sum by (|) (foo{a='b'})", ["a"], ["rate", "foo"]),
            ("rate(|) + foo", ["foo", "rate"], ["by"]),
            ("foo + f|", ["foo", "floor"], ["rate"]),
            ("'a|'", [], ["rate"]),
            ("foo # |", [], ["rate"]),
        ):
            labels = self.labels(text)
            for label in wanted:
                self.assertIn(label, labels, text)
            for label in unwanted:
                self.assertNotIn(label, labels, text)

    def test_written(self):
        """Each function, written as its snippet says with fitting arguments, is accepted."""
        arguments = {"vector": "a", "matrix": "a[1m]", "scalar": "1", "string": "'b'"}
        for function in (*FUNCTIONS.values(), *AGGREGATIONS.values()):
            needed = [parameter for parameter in function.parameters if not parameter.is_optional]
            for parameters in needed, function.parameters:
                values = [arguments[parameter.type] for parameter in parameters]
                query = f"{function.name}({', '.join(values)})"
                if function.name == "info":
                    query = query.replace("a, a", "a, {b='c'}")
                promql.check(query)
                self.assertEqual(promql.parse(query)["type"], "call" if function.name in FUNCTIONS else "aggregation")

    def test_other_documents(self):
        self.client.open("file:///other.promql", 'other_metric{zone="west"}')
        self.assertIn("other_metric", self.labels("a + |"))
        self.assertIn("west", self.labels('a{zone="|"}'))
        self.client.notify("textDocument/didClose", {"textDocument": {"uri": "file:///other.promql"}})
        self.assertNotIn("other_metric", self.labels("a + |"))


class Plain(unittest.TestCase):
    def test_without_snippets(self):
        client = Client(snippets=False)
        client.open(URI, "ra")
        items = client.at("completion", URI, 0, 2)["items"]
        self.assertEqual({item["textEdit"]["newText"] for item in items if item["label"] == "rate"}, {"rate"})
        self.assertEqual([item for item in items if "insertTextFormat" in item], [])
        self.assertEqual(client.close(), 0)


class Protocol(unittest.TestCase):
    def test_unknown_method(self):
        client = Client()
        with self.assertRaises(Refused) as caught:
            client.request("textDocument/unheardOf", {})
        self.assertEqual(caught.exception.code, messages.METHOD_NOT_FOUND)
        client.notify("unheardOf", {})
        client.notify("$/setTrace", {"value": "off"})
        self.assertEqual(client.close(), 0)

    def test_order(self):
        client = Client(initialize=False)
        for method, code in (("textDocument/hover", messages.NOT_INITIALIZED), ("shutdown", messages.NOT_INITIALIZED)):
            with self.assertRaises(Refused) as caught:
                client.request(method, {})
            self.assertEqual(caught.exception.code, code)
        client.request("initialize", {})
        for method in "initialize", "textDocument/hover":
            with self.assertRaises(Refused):
                client.request(method, {})
        client.request("shutdown", None)
        with self.assertRaises(Refused) as caught:
            client.request("textDocument/hover", {})
        self.assertEqual(caught.exception.code, messages.INVALID_REQUEST)
        client.notify("exit", None)
        self.assertEqual(client.ended(), 0)

    def test_exit(self):
        client = Client()
        client.notify("exit", None)
        self.assertEqual(client.ended(), 1)

    def test_end(self):
        self.assertEqual(Client().ended(), 1)

    def test_broken_messages(self):
        client = Client()
        for body, code in (
            (b"{", messages.PARSE_ERROR),
            (b"\xff", messages.PARSE_ERROR),
            (b"[" * 100_000, messages.PARSE_ERROR),
            (b"[]", messages.INVALID_REQUEST),
            (b'{"id":1}', messages.INVALID_REQUEST),
            (b'{"id":[1],"method":"shutdown"}', messages.INVALID_REQUEST),
            (b'{"id":7,"method":"textDocument/hover","params":[]}', messages.INVALID_PARAMS),
            (b'{"id":7,"method":"textDocument/hover"}', messages.INVALID_PARAMS),
            (b'{"id":7,"method":"textDocument/hover","params":{"textDocument":{"uri":1}}}', messages.INVALID_PARAMS),
            (b'{"id":7,"method":"textDocument/selectionRange","params":{"textDocument":{"uri":""}}}', messages.INVALID_PARAMS),
        ):
            client.write(body)
            self.assertEqual(client.take()["error"]["code"], code, body[:50])
        client.write(b'{"id":8,"result":null}')
        client.open(URI, "up")
        for position in ({}, None, [], {"line": -1, "character": 0}, {"line": "0", "character": 0}, {"line": True, "character": 0}):
            with self.assertRaises(Refused) as caught:
                client.request("textDocument/hover", {"textDocument": {"uri": URI}, "position": position})
            self.assertEqual(caught.exception.code, messages.INVALID_PARAMS)
        client.at("hover", URI, 10**12, 10**12)
        for params in ({}, [], {"textDocument": {"uri": URI}}, {"textDocument": {"uri": URI}, "contentChanges": [1, {"range": 2}]}):
            client.notify("textDocument/didChange", params)
            client.notify("textDocument/didOpen", params)
        self.assertEqual(client.close(), 0)

    def test_headers(self):
        body = b'{"method":"a"}'
        for text, wanted in (
            (b"Content-Length: 14\r\n\r\n" + body, body),
            (b"content-length:14\r\nContent-Type: x\r\n\r\n" + body, body),
            (b"Content-Length: 15\r\n\r\n" + body, None),
            (b"", None),
            (b"Content-Length: %d\r\n\r\n" % (messages.MOST_BYTES + 1) + bytes(messages.MOST_BYTES + 1), b""),
        ):
            self.assertEqual(messages.read_body(io.BytesIO(text)), wanted)
        lengths = [b"Content-Length: %s\r\n\r\n" % length for length in (b"-1", b"x", b"9" * 16)]
        for text in (b"\r\n", b"a" * 5_000, *lengths):
            with self.assertRaises(messages.BrokenStream):
                messages.read_body(io.BytesIO(text))

    def test_cancelled(self):
        client = Client()
        client.open(URI, "up")
        place = {"textDocument": {"uri": URI}, "position": {"line": 0, "character": 0}}
        codes = []
        for _ in range(50):
            number = client.begin("textDocument/hover", place)
            client.notify("$/cancelRequest", {"id": number})
            try:
                client.result(number)
                codes.append(0)
            except Refused as refused:
                codes.append(refused.code)
        # (it is answered or cancelled, by which came first)
        self.assertLessEqual({*codes}, {0, messages.REQUEST_CANCELLED})
        client.notify("$/cancelRequest", {"id": "never"})
        client.notify("$/cancelRequest", None)
        self.assertIsNotNone(client.request("textDocument/hover", place))
        self.assertEqual(client.close(), 0)

    def test_status_of_command(self):
        command = [sys.executable, "-m", "promql", "lsp", "--prometheus", "http://example.org:9090"]
        ran = subprocess.run(command, stdin=subprocess.DEVNULL, stderr=subprocess.PIPE, cwd=ROOT / "bindings/python", timeout=30)
        self.assertEqual(ran.returncode, 64)
        self.assertIn(b"not the URL of a server on this machine", ran.stderr)

    def test_other_reader(self):
        """The streams of python3-pylsp-jsonrpc write what is read here, and read what is written here."""
        try:
            from pylsp_jsonrpc.streams import JsonRpcStreamReader, JsonRpcStreamWriter
        except ImportError:
            self.skipTest("there is no pylsp_jsonrpc here")
        message = {"jsonrpc": "2.0", "id": 1, "method": "é𝄞", "params": {"a": [None]}}
        written = io.BytesIO()
        written.close, data = lambda: None, written
        JsonRpcStreamWriter(data).write(message)
        data.seek(0)
        self.assertEqual(messages.decoded(messages.read_body(data)), message)
        own, found = io.BytesIO(), []
        messages.write_message(own, message)
        own.seek(0)
        JsonRpcStreamReader(own).listen(found.append)
        self.assertEqual(found, [message])


class Tables(unittest.TestCase):
    def test_functions(self):
        """The functions are those of docs/reference/functions.md, with their types."""
        seen = set()
        for line in (ROOT / "docs/reference/functions.md").read_text(encoding="utf-8").splitlines():
            cells = [cell.strip() for cell in line.split("|")]
            if len(cells) != 7 or not cells[1].startswith("`"):
                continue
            for name in re.findall(r"`(\w+)`", cells[1]):
                seen.add(name)
                function = FUNCTIONS[name]
                self.assertEqual(", ".join(it.type for it in function.parameters) or "none", cells[2], name)
                self.assertEqual((function.value, function.is_experimental), (cells[4], cells[5] == "yes"), name)
                optional, repeated = (any(getattr(it, flag) for it in function.parameters) for flag in ("is_optional", "is_repeated"))
                self.assertEqual((optional, repeated), (cells[3] != "0", cells[3] in ("-1", "9")), name)
        self.assertEqual(seen, set(FUNCTIONS))
        self.assertEqual(len(seen), 89)

    def test_words(self):
        """The words are those of the library, which the reference lists."""
        page = (ROOT / "docs/reference/tokens.md").read_text(encoding="utf-8")
        words = re.findall(r"^\| \d+ \| `T_\w+` \| `([a-z]\w+)` \| (operator|keyword|aggregator) \|$", page, re.M)
        self.assertEqual({word for word, kind in words if kind == "aggregator"}, set(AGGREGATIONS))
        self.assertEqual({word for word, kind in words if kind != "aggregator"}, set(WORDS))
        for word, kind in words:
            self.assertEqual(promql.tokens(f"{word}(")[0], (kind, 0, len(word)))
        for function in (*FUNCTIONS.values(), *AGGREGATIONS.values()):
            self.assertRegex(function.sentence, r"^[A-Z].*\.$")


class Server(BaseHTTPRequestHandler):
    """A server with the three calls that are made, of which one has no answer."""

    ANSWERS = {
        "/api/v1/label/__name__/values": ["served_metric"],
        "/api/v1/labels": ["__name__", "served_label"],
        "/api/v1/label/served_label/values": ["served value"],
    }

    def do_GET(self):
        if self.path not in self.ANSWERS:
            self.send_response(302)
            self.send_header("Location", "http://example.org/")
            self.end_headers()
            return
        body = json.dumps({"status": "success", "data": self.ANSWERS[self.path]}).encode()
        self.send_response(200)
        self.send_header("Content-Length", str(len(body)))
        self.end_headers()
        self.wfile.write(body)

    def log_message(self, *_):
        pass


class Served(unittest.TestCase):
    def test_names(self):
        server = HTTPServer(("127.0.0.1", 0), Server)
        threading.Thread(target=server.serve_forever, daemon=True).start()
        client = Client("--prometheus", f"http://127.0.0.1:{server.server_port}")
        client.open(URI, "served_")
        until = time.monotonic() + 10
        labels = []
        while "served_metric" not in labels and time.monotonic() < until:
            labels = [item["label"] for item in client.at("completion", URI, 0, 7)["items"]]
        self.assertIn("served_metric", labels)
        client.open(URI, 'a{served_label=""}', version=2)
        self.assertIn("served_label", [item["label"] for item in client.at("completion", URI, 0, 2)["items"]])
        self.assertEqual([item["label"] for item in client.at("completion", URI, 0, 16)["items"]], ["served value"])
        self.assertEqual(client.close(), 0)
        server.shutdown()
        server.server_close()

    def test_no_server(self):
        prometheus = Prometheus("http://localhost:1/")
        prometheus.known()
        prometheus.wait(10)
        self.assertEqual(prometheus.known().metrics, set())

    def test_elsewhere(self):
        others = ("http://example.org", "http://127.0.0.1.example.org", "http://10.0.0.1")
        for url in (*others, "file:///etc/passwd", "localhost:9090", "http://"):
            with self.assertRaises(NotHere):
                Prometheus(url)
        for url in ("http://localhost:9090", "http://127.0.0.1", "http://[::1]:9090/prefix/"):
            Prometheus(url)


class Places(unittest.TestCase):
    def test_units(self):
        lines = Lines("a𝄞b\r\né\n\nx")
        for offset, line, character in ((0, 0, 0), (1, 0, 1), (2, 0, 3), (3, 0, 4), (5, 1, 0), (6, 1, 1), (7, 2, 0), (8, 3, 0), (9, 3, 1)):
            position = {"line": line, "character": character}
            self.assertEqual(lines.position(offset), position)
            self.assertEqual(lines.offset(position), offset)
        # within a pair, past the end of a line, and past all lines
        for line, character, offset in ((0, 2, 1), (0, 99, 3), (9, 0, 9)):
            self.assertEqual(lines.offset({"line": line, "character": character}), offset)
