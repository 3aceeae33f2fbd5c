"""Tests of the language server with rule files."""

import random
import re
import sys
import tempfile
import time
import unittest
from pathlib import Path
from unittest import mock

from command_line import run
from lsp_client import Client, Refused
from promql.lsp import layout, messages
from promql.lsp.documents import Document
from promql.lsp.layout import RuleLayouts, lines_edits, rule_file_edits
from promql.lsp.positions import Lines
from promql.lsp.rules import problems_of, read_file, rules_of
from promql.queries import edited
from promql.rule_files import RuleFile
from written import STYLES, rule_file, write

try:
    import ruamel.yaml  # noqa: F401
except ImportError as error:
    raise unittest.SkipTest("there is no ruamel.yaml here") from error

HERE = Path(__file__).resolve().parent
FILES = HERE / "files"
ROOT = HERE.parents[2]
QUERIES = (ROOT / "bench/queries/queries.txt").read_text(encoding="utf-8").splitlines()
sys.path.append(str(ROOT / "bindings"))
import lsp_files  # noqa: E402

URI, OTHER = "file:///rules.yml", "file:///other.yaml"
RULES = """\
groups:
- name: a
  rules:
  - record: job:up:sum
    expr: |
      sum by (job) (
        up{zone="west"}
      )
  - alert: Down
    expr: 'job:up:sum == 0 and on (job) ''x'''
    for: 5m
  - alert: Few
    expr: >-
      job:up:sum
      < 3
    annotations:
      summary: "{{ $value }}"
"""
BROKEN = RULES.replace("''x'''", "absent(up)'")


NEW = ["a", "ab c", " ", "𝄞", "\n", ": ", "#", "'", '"', "- x", "{", "&a", "", "\n  - record: x\n    expr: up\n"]


def places(text, part):
    return [found.start() for found in re.finditer(re.escape(part), text)]


def apply(text, edits):
    """A text after the edits of the protocol."""
    lines = Lines(text)
    spans = sorted(((*lines.span(edit["range"]), edit["newText"]) for edit in edits), reverse=True)
    for start, end, new in spans:
        text = text[:start] + new + text[end:]
    return text


class Files(unittest.TestCase):
    def setUp(self):
        self.client = Client()

    def tearDown(self):
        self.assertEqual(self.client.close(), 0)
        self.assertEqual(b"".join(self.client.said), b"")

    def at(self, method, text, offset, uri=URI, **more):
        position = Lines(text).position(offset)
        return self.client.at(method, uri, position["line"], position["character"], **more)

    def parts(self, text, found):
        lines = Lines(text)
        return [lines.text[slice(*lines.span(it["range"]))] for it in found]

    def test_diagnostics(self):
        """They are those of `promql-rules check`, at their places."""
        for path in sorted(FILES.glob("*.yml")):
            text = path.read_bytes().decode()
            found = self.client.open(path.as_uri(), text, "yaml")
            ran = run("check", path)
            wanted = sorted(re.findall(r"^\S+?:(\d+):(\d+): (.*)$", ran.err, re.M))
            places = [(it["range"]["start"], it["message"]) for it in found]
            told = sorted((str(place["line"] + 1), str(place["character"] + 1), message) for place, message in places)
            self.assertEqual(told, [it for it in wanted if not it[2].startswith("skipped: ")], path)
        (found,) = self.client.open(URI, RULES, "yaml")
        self.assertEqual(found["message"], "binary expression must contain only scalar and instant vector types")
        self.assertEqual(found["range"]["start"]["line"], 9)

    def test_other_yaml(self):
        """A file that is none of rules has no faults."""
        for text in ("services:\n  a: b\n", "- a\n- b\n", "a: [", "", "kind: Pod\napiVersion: v1\n"):
            self.assertEqual(self.client.open("file:///compose.yml", text, "yaml"), [], text)

    def test_not_yaml(self):
        text = RULES + "  - alert: [\n"
        (found,) = self.client.open(URI, text, "yaml")
        self.assertIn("not YAML", found["message"])
        # what was read before is known still
        self.client.open(OTHER, BROKEN, "yaml")
        lines = Lines(BROKEN)
        self.client.change(OTHER, 2, {"range": lines.range(len(BROKEN), len(BROKEN)), "text": "  - alert: [\n"})
        self.assertIn("not YAML", self.client.wait_for_diagnostics(OTHER, 2)[0]["message"])
        self.assertIn("Selects the series of `up`", self.at("hover", BROKEN, BROKEN.index("up{"), OTHER)["contents"]["value"])

    def test_layout(self):
        """It is that of `promql-rules format`, but that a query with a comment is laid out for people in the style `pretty`, too."""
        pretty = Client("--style", "pretty")
        for path in sorted(FILES.glob("*.yml")):
            if path.name.endswith(".formatted.yml"):
                continue
            text, formatted = self.formatted(pretty, path), run("format", "--style", "pretty", path)
            if "it has a comment" in formatted.err:
                with tempfile.NamedTemporaryFile("w", suffix=".yml", newline="") as file:
                    file.write(text)
                    file.flush()
                    self.assertEqual(run("format", "--style", "pretty", file.name).out, text)
                    self.assertNotEqual(text, formatted.out)
            else:
                self.assertEqual(text, path.with_suffix(".formatted.yml").read_bytes().decode(), path)
            self.assertEqual(self.formatted(self.client, path), run("format", path).out, path)
        self.assertEqual(pretty.close(), 0)

    def formatted(self, client, path):
        text = path.read_bytes().decode()
        client.open(path.as_uri(), text, "yaml")
        params = {"textDocument": {"uri": path.as_uri()}, "options": {}}
        return apply(text, client.request("textDocument/formatting", params))

    def test_lint(self):
        client = Client(options={})
        text = RULES.replace("up{", 'up{zone=~"a",')
        found = {it.get("code"): it for it in client.open(URI, text, "yaml")}
        self.assertEqual((found[None]["severity"], found["P103"]["severity"]), (1, 2))
        self.assertEqual(self.parts(text, [found["P103"]]), ['zone=~"a"'])
        text += "# promql: ignore-file P103\n"
        client.change(URI, 2, {"text": text})
        self.assertNotIn("P103", [it.get("code") for it in client.wait_for_diagnostics(URI, 2)])
        self.assertEqual(client.close(), 0)

    def test_layout_of_few(self):
        """Where few rules change only these are read again, and it comes to the same."""
        generator = random.Random(11)
        for _ in range(40):
            text, _ = rule_file(generator, generator.sample(QUERIES, 6))
            with mock.patch.object(layout, "_FEW", 0):
                whole = rule_file_edits(text, None)
            self.assertEqual(rule_file_edits(text, None), whole, text)
        text = lsp_files.rule_file(60)
        edits = rule_file_edits(text, None)
        few = edited(text, edits[3:])
        with mock.patch.object(RuleFile, "same", autospec=True, side_effect=RuleFile.same) as compared:
            self.assertEqual(len(rule_file_edits(few, None)), 3)
        self.assertEqual([len(call.args[0].queries) for call in compared.mock_calls], [1, 1, 1])

    def test_layout_again(self):
        """Only rules that were changed are looked at again."""
        text = lsp_files.rule_file(200).replace(" / ", "  / ")
        rules, _ = problems_of(text)
        layouts = RuleLayouts()
        self.assertIsNone(layouts.edits(text, rules))
        whole = rule_file_edits(text, None)
        self.assertGreater(len(whole), 50)
        layouts.learn(text, rules, whole)
        with mock.patch.object(layout, "_edits_in", side_effect=AssertionError):
            self.assertEqual(layouts.edits(text, rules), whole)
        new = edited(text, whole)
        rules, _ = problems_of(new)
        with mock.patch.object(layout, "_edits_in", side_effect=AssertionError):
            self.assertEqual(layouts.edits(new, rules), [])
        changed = new.replace(" > ", "  >  ", 1)
        self.assertNotEqual(changed, new)
        rules, _ = problems_of(changed)
        self.assertEqual(layouts.edits(changed, rules), rule_file_edits(changed, None))

    def test_layout_of_part(self):
        text = BROKEN.replace("job:up:sum == 0", "job:up:sum  ==  0").replace("< 3", "<   3")
        self.client.open(URI, text, "yaml")
        span = Lines(text).range(text.index("Down"), text.index("Down") + 30)
        params = {"textDocument": {"uri": URI}, "range": span, "options": {}}
        edits = self.client.request("textDocument/rangeFormatting", params)
        self.assertEqual(apply(text, edits), text.replace("  ==  ", " == "))

    def test_layout_of_each_part(self):
        """A rule laid out by itself is what it is when all are."""
        generator = random.Random(5)
        for _ in range(60):
            text, _ = rule_file(generator, generator.sample(QUERIES, 6))
            rules, problems = problems_of(text)
            if problems or rules is None:
                continue
            whole = rule_file_edits(text, None)
            for number, rule in enumerate(rules):
                end = rules[number + 1].start if number + 1 < len(rules) else len(text)
                found = lines_edits(text, rules, (rule.start + 1, rule.end))
                if found is not None:
                    self.assertEqual(found, [edit for edit in whole if rule.start <= edit.start < end], text)

    def test_hover_and_signatures(self):
        """Each way to write a query in YAML has its places."""
        generator = random.Random(3)
        query = "sum by (job) (rate(errors_total[5m])) + on (job) other_metric"
        for number, style in enumerate(STYLES * 3):
            scalar = write(generator, query, style, 6)
            if scalar is None:
                continue
            text = f"groups:\n- name: a\n  rules:\n  - record: b\n    expr: {scalar.text}\n"
            uri = f"file:///{number}.yml"
            self.assertEqual(self.client.open(uri, text, "yaml"), [], text)
            begin = text.index(scalar.text)
            words = (("rate", "How fast"), ("errors_total", "Selects the series of `errors_total`"), ("other_metric", "other_metric"))
            for word, told in words:
                offset = begin + scalar.offsets[query.index(word)]
                found = self.at("hover", text, offset + 1, uri)
                self.assertIn(told, found["contents"]["value"], text)
                self.assertEqual(Lines(text).offset(found["range"]["start"]), offset, text)
            offset = begin + scalar.offsets[query.index("errors_total") + 1]
            self.assertEqual(self.at("signatureHelp", text, offset, uri)["activeParameter"], 0)

    def test_recorded(self):
        self.client.open(URI, BROKEN, "yaml")
        text = "job:up:sum * 2"
        self.client.open("file:///q.promql", text)
        found = self.at("hover", text, 3, "file:///q.promql")
        self.assertIn('Recorded as\n```promql\nsum by (job) (\n  up{zone="west"}\n)\n```', found["contents"]["value"])

    def test_definition_and_uses(self):
        self.client.open(URI, BROKEN, "yaml")
        text = "job:up:sum * 2 + up"
        self.client.open("file:///q.promql", text)
        record, *uses = places(BROKEN, "job:up:sum")
        for uri, document, offset in (("file:///q.promql", text, 3), (URI, BROKEN, uses[0] + 1), (URI, BROKEN, record)):
            found = self.at("definition", document, offset, uri)
            self.assertEqual([(it["uri"], Lines(BROKEN).offset(it["range"]["start"])) for it in found], [(URI, record)])
            found = self.at("references", document, offset, uri, context={"includeDeclaration": True})
            own = sorted(Lines(BROKEN).offset(it["range"]["start"]) for it in found if it["uri"] == URI)
            self.assertEqual((own, len(found)), ([record, *uses], 4))
            self.assertEqual(len(self.at("references", document, offset, uri, context={"includeDeclaration": False})), 3)
        self.assertEqual(self.at("definition", text, text.index("up", 10), "file:///q.promql"), [])
        self.assertIsNone(self.at("definition", BROKEN, BROKEN.index("Down")))

    def test_rename(self):
        texts = {URI: BROKEN, OTHER: BROKEN.replace("record: job", "record: 'x").replace("up:sum\n", "up:sum'\n", 1)}
        texts["file:///q.promql"] = '{"job:up:sum"} + {__name__="job:up:sum"} + {a="job:up:sum"} # job:up:sum'
        for uri, text in texts.items():
            self.client.open(uri, text, "promql" if uri.endswith("promql") else "yaml")
        found = self.at("prepareRename", BROKEN, BROKEN.index("job:up:sum") + 2)
        self.assertEqual(found["placeholder"], "job:up:sum")
        found = self.at("rename", BROKEN, BROKEN.index("job:up:sum") + 2, newName="job:up:total")["changes"]
        for uri, text in texts.items():
            new = apply(text, found[uri])
            wanted = text.replace("job:up:sum", "job:up:total")
            if uri.endswith("promql"):
                wanted = text.replace("job:up:sum", "job:up:total", 2)
            self.assertEqual(new, wanted)

    def test_refused_names(self):
        self.client.open(URI, BROKEN, "yaml")
        for name in ("", "a b", "1a", "a:", ":a", "inf", "NaN", "bool", "é", 'a"', "group_left"):
            with self.assertRaises(Refused, msg=name):
                self.at("rename", BROKEN, BROKEN.index("job:up:sum"), newName=name)

    def test_unusual_names(self):
        """A name that YAML or the language may read otherwise is refused, or read as the name."""
        text = "groups:\n- name: a\n  rules:\n  - record: old\n    expr: 1 + old\n"
        self.client.open(OTHER, text, "yaml")
        for name in ("null", "true", "on", "sum", "by", "or", "y", "fill", "start"):
            try:
                new = apply(text, self.at("rename", text, text.index("old"), OTHER, newName=name)["changes"][OTHER])
            except Refused:
                continue
            (rule,) = rules_of(read_file(new))
            self.assertEqual((rule.record, rule.queries[0].names.metrics[0].name), (name, name))

    def test_completion(self):
        text = BROKEN.replace('up{zone="west"}', 'up{zone="west", }').replace("< 3", "< 3 ")
        self.client.open(URI, text, "yaml")
        labels = [it["label"] for it in self.at("completion", text, text.index(", }") + 2)["items"]]
        self.assertIn("job", labels)
        self.assertIn("zone", labels)
        labels = [it["label"] for it in self.at("completion", text, text.index("absent(") + 7)["items"]]
        self.assertIn("job:up:sum", labels)
        self.assertIn("and", [it["label"] for it in self.at("completion", text, text.index("< 3 ") + 4)["items"]])
        self.assertIsNone(self.at("completion", text, text.index("Down")))

    def test_selections_and_colours(self):
        self.client.open(URI, BROKEN, "yaml")
        place = Lines(BROKEN).position(BROKEN.index("west"))
        (found,) = self.client.request("textDocument/selectionRange", {"textDocument": {"uri": URI}, "positions": [place]})
        count = 0
        while found.get("parent"):
            inner, found, count = Lines(BROKEN).span(found["range"]), found["parent"], count + 1
            outer = Lines(BROKEN).span(found["range"])
            self.assertTrue(outer[0] <= inner[0] and inner[1] <= outer[1])
        self.assertGreater(count, 6)
        self.assertEqual(Lines(BROKEN).span(found["range"]), (0, len(BROKEN)))
        data = self.client.request("textDocument/semanticTokens/full", {"textDocument": {"uri": URI}})["data"]
        line, character, words = 0, 0, []
        for at in range(0, len(data), 5):
            line, character = line + data[at], data[at + 1] + (character if data[at] == 0 else 0)
            words.append(BROKEN.split("\n")[line][character : character + data[at + 2]])
        self.assertEqual(
            words,
            ["sum", "by", "job", "up", "zone", "=", '"west"', "job:up:sum", "==", "0", "and", "on", "job", "absent", "up"]
            + ["job:up:sum", "<", "3"],
        )
        span = Lines(BROKEN).range(BROKEN.index("Few"), len(BROKEN))
        part = self.client.request("textDocument/semanticTokens/range", {"textDocument": {"uri": URI}, "range": span})["data"]
        self.assertEqual(len(part), 15)


class Changes(unittest.TestCase):
    def test_rules_move(self):
        """After each change the rules are those of the whole text, or it is known that they are not."""
        chance = random.Random(4)
        exact = 0
        for trial in range(12):
            text = lsp_files.rule_file(8) if trial % 2 else rule_file(chance, chance.sample(QUERIES, 6))[0]
            document = Document(URI, "yaml", 1, text)
            document.settle(problems_of(text)[0])
            for _ in range(60):
                text = document.text
                start = chance.randrange(len(text) + 1)
                if chance.random() < 0.8 and document.rules:
                    rule = chance.choice(document.rules)
                    start = chance.randrange(rule.start, rule.end + 2)
                end = min(start + chance.choice((0, 0, 0, 1, 3)), len(text))
                new = chance.choice(NEW)
                lines = document.lines
                whole = lines.range(start, end)
                document.change({"range": whole, "text": new})
                self.assertEqual(document.text, text[: lines.offset(whole["start"])] + new + text[lines.offset(whole["end"]) :])
                rules = problems_of(document.text)[0]
                for query in document.queries():
                    self.assertLessEqual(query.end, len(document.text))
                if document.is_read:
                    exact += 1
                    self.assertEqual(shown(document.rules), shown(rules or []), (text, start, end, new))
                elif rules is not None:
                    document.settle(rules)
                else:
                    # (back to what was YAML)
                    document.set_text(text)
                    document.settle(problems_of(text)[0])
        self.assertGreater(exact, 150)

    def test_random_edits(self):
        """The server lives through any document, and tells of it what is told of it whole."""
        client, chance = Client(), random.Random(6)
        text, version = lsp_files.rule_file(12), 1
        client.open(URI, text, "yaml")
        for step in range(150):
            lines = Lines(text)
            start, end = sorted((chance.randrange(len(text) + 1), chance.randrange(len(text) + 1)))
            end = min(end, start + 5)
            new = chance.choice(["𝄞", "\n", "\r", "\t", '"', "'", "{{", "[", "&a *a", "- ", ": |\n", "#", "(", "\x00", "<<: *b", "%"])
            whole = lines.range(start, end)
            text, version = text[: lines.offset(whole["start"])] + new + text[lines.offset(whole["end"]) :], version + 1
            client.change(URI, version, {"range": whole, "text": new})
            position = Lines(text).position(chance.randrange(len(text) + 1))
            method = chance.choice(["hover", "completion", "signatureHelp", "definition", "references", "prepareRename"])
            client.request(f"textDocument/{method}", {"textDocument": {"uri": URI}, "position": position})
            client.request("textDocument/semanticTokens/full", {"textDocument": {"uri": URI}})
            client.request("textDocument/selectionRange", {"textDocument": {"uri": URI}, "positions": [position]})
            if step % 10 == 0:
                found = client.wait_for_diagnostics(URI, version)
                self.assertEqual([it["message"] for it in found], [it.message for it in problems_of(text)[1]])
                try:
                    client.request("textDocument/formatting", {"textDocument": {"uri": URI}, "options": {}})
                except Refused as refused:
                    self.assertEqual(refused.code, messages.REQUEST_FAILED)
        self.assertEqual(client.close(), 0)
        self.assertEqual(b"".join(client.said), b"")

    def test_format_of_old_text(self):
        client = Client()
        text = lsp_files.rule_file(300)
        client.open(URI, text, "yaml")
        number = client.begin("textDocument/formatting", {"textDocument": {"uri": URI}, "options": {}})
        client.change(URI, 2, {"range": Lines(text).range(0, 0), "text": "# a\n"})
        with self.assertRaises(Refused) as caught:
            client.result(number)
        self.assertEqual(caught.exception.code, messages.CONTENT_MODIFIED)
        numbers = [client.begin("textDocument/formatting", {"textDocument": {"uri": URI}, "options": {}}) for _ in range(3)]
        for number in numbers:
            client.notify("$/cancelRequest", {"id": number})
        for number in numbers:
            with self.assertRaises(Refused) as caught:
                client.result(number)
            self.assertEqual(caught.exception.code, messages.REQUEST_CANCELLED)
        self.assertEqual(client.close(), 0)

    def test_slow_text(self):
        """A text that takes long to read holds up no request, and an outdated one is given up."""
        client = Client()
        # (not YAML at its end, so that the slow reader has all of it)
        slow = lsp_files.rule_file(1_500) + "x: [\n"
        client.notify("textDocument/didOpen", {"textDocument": {"uri": URI, "languageId": "yaml", "version": 1, "text": slow}})
        client.open("file:///q.promql", "rate(up[5m])")
        for _ in range(20):
            begin = time.monotonic()
            client.at("hover", "file:///q.promql", 0, 1)
            self.assertLess(time.monotonic() - begin, 1)
        client.change(URI, 2, {"text": BROKEN})
        self.assertEqual(client.wait_for_diagnostics(URI, 2), [])
        self.assertEqual(client.close(), 0)

    def test_large_text(self):
        client = Client()
        (found,) = client.open(URI, "#" * (9 * 1024 * 1024), "yaml")
        self.assertIn("larger", found["message"])
        client.at("hover", URI, 0, 5)
        client.change(URI, 2, {"text": BROKEN})
        self.assertEqual(client.wait_for_diagnostics(URI, 2), [])
        self.assertEqual(client.close(), 0)


def shown(rules):
    """What there is to compare of rules."""
    found = []
    for rule in rules:
        queries = [(it.text, [it.offset(at) for at in range(len(it.text) + 1)]) for it in rule.queries]
        found.append((rule.start, rule.end, rule.record, rule.record_start, rule.alert, queries))
    return found
