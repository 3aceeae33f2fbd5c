"""Tests of what the language server takes from tokens: selectors, labels and spans, against what the library reads."""

import random
import unittest
from pathlib import Path

import promql
from promql.labels import nodes_of
from promql.lsp.hover import hover
from promql.lsp.names import names_of, selectors_of
from promql.lsp.context import spans_around
from promql.token_texts import code_of, tokens_of

ROOT = Path(__file__).resolve().parents[3]


def texts():
    """The texts of the rows, and queries as people write them."""
    found = set((ROOT / "bench/queries/queries.txt").read_text(encoding="utf-8").splitlines())
    for path in sorted((ROOT / "rows").glob("*.tsv")):
        for line in path.read_text(encoding="utf-8").splitlines():
            fields = line.split("\t")
            found.update(field.replace("\\n", "\n").replace("\\t", "\t") for field in fields if 0 < len(field) < 2_000)
    return sorted(found)


def accepted():
    for text in texts():
        try:
            yield text, promql.parse(text, places=True)
        except (ValueError, RecursionError):
            pass


class Selectors(unittest.TestCase):
    def test_accepted(self):
        """The selectors of an accepted query are those of the library's tree, with its matchers."""
        count = 0
        for text, tree in accepted():
            nodes = [node for node in nodes_of(tree) if node["type"] in ("vectorSelector", "matrixSelector")]
            found = selectors_of(text)
            self.assertEqual(len(found), len(nodes), text)
            for selector, node in zip(found, nodes):
                count += 1
                self.assertTrue(node["start"] <= selector.start and selector.end <= node["end"], text)
                self.assertEqual(selector.name.text if selector.name else None, node["name"], text)
                matchers = [it for it in (*node["matchers"], *(it for group in node.get("or_matchers", ()) for it in group))]
                spans = [((it.name or it.value).start, it.value.end) for it in selector.matchers]
                self.assertEqual(spans, [(it["start"], it["end"]) for it in matchers], text)
        self.assertGreater(count, 2_000)

    def test_names(self):
        """Metrics are those that the library collects, where no name has an escape."""
        for text, _ in accepted():
            if "\\" not in text:
                self.assertEqual({use.name for use in names_of(text).metrics}, set(promql.collect(text)["metrics"]), text)

    def test_rejected(self):
        """What has no tree has the selectors and the labels that its tokens tell."""
        for text, metrics, labels, values in (
            ("sum by (job, instance) (foo{a='b'} +", {"foo"}, ["a", "instance", "job"], [("a", "b")]),
            ("foo{a='b', c", {"foo"}, ["a"], [("a", "b")]),
            ("{'foo', a!='b'} {", {"foo"}, ["a"], [("a", "b")]),
            ("rate(foo[5m]) bar", {"foo", "bar"}, [], []),
            ("foo on (a, b) group_left(c) +", {"foo"}, ["a", "b", "c"], []),
            ("{__name__='foo', a=~'b'", {"foo"}, ["a"], [("__name__", "foo")]),
        ):
            names = names_of(text)
            self.assertEqual(({use.name for use in names.metrics}, [*names.labels], [*names.values]), (metrics, labels, values), text)

    def test_hover_of_rejected(self):
        for text, at, part, told in (
            ("rate(foo +", 1, "rate", "How fast a counter grew"),
            ("sum by (a) (foo", 1, "sum", "The sum of the samples"),
            ("foo and", 5, "and", "the left side which have one"),
            ("foo{a='b'} +", 1, "foo{a='b'}", "- `a` is `'b'`"),
            ("foo{a='b'} +", 7, "foo{a='b'}", "- `a` is `'b'`"),
        ):
            found = hover(text, at)
            self.assertEqual(text[found.start : found.end], part)
            self.assertIn(told, found.text)

    def test_selection_of_rejected(self):
        text = "sum(rate(foo{a='b c'}[5m])) +"
        parts = [text[start:end] for start, end in spans_around(text, text.index(" c"))]
        inner = ["b c", "'b c'", "a='b c'", "{a='b c'}", "foo{a='b c'}"]
        outer = ["foo{a='b c'}[5m]", "(foo{a='b c'}[5m])", "rate(foo{a='b c'}[5m])"]
        self.assertEqual(parts, [*inner, *outer, f"({outer[-1]})", f"sum({outer[-1]})", text])


class Tokens(unittest.TestCase):
    def test_accepted(self):
        """The tokens of an accepted query, with white space between, are the query."""
        count = 0
        for text, _ in accepted():
            self.assertNotIn("error", [token.kind for token in tokens_of(text)], text)
            # (in braces, `or` before a space is a separator, and else a label)
            words = [token.text + (" " if token.kind == "operator" else "\n") for token in code_of(text)]
            self.assertEqual(promql.canonical("".join(words)), promql.canonical(text), text)
            count += 1
        self.assertGreater(count, 1_500)

    def test_broken(self):
        """Of any text something is told."""
        chance = random.Random(1)
        all_texts = texts()
        for _ in range(2_000):
            text = chance.choice(all_texts)
            at = chance.randrange(len(text) + 1)
            text = text[:at] + chance.choice(['"', "{", "(", "[", ")", "#", "é", "𝄞", " or ", "-", ""]) + text[at + chance.randrange(3) :]
            for start, end in (*((it.start, it.end) for it in selectors_of(text)), *spans_around(text, at)):
                self.assertTrue(0 <= start <= end <= len(text), text)
            hover(text, at)

    def test_deep(self):
        for text in ("(" * 20_000, "-" * 20_000, "a" * 40_000, "{a=" * 10_000, "\ud800" * 9):
            self.assertEqual(spans_around(text, 5)[-1], (0, len(text)))
            names_of(text)
        self.assertEqual(tokens_of("a" * 40_000), ())
