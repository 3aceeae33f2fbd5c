"""Tests that trees which the extension reads and writes are those of the package's own reader and writer: python3 -m unittest discover -s
tests, where Python finds the package. PROMQL_CHANGED names how many trees and texts are changed at random."""

import copy
import gc
import json
import os
import pickle
import random
import sys
import tracemalloc
import unittest
import weakref
from pathlib import Path

import promql
from promql import tree
from promql._calls import calls
from promql._printing import _node_calls, form_of, tree_of
from promql.tree import Aggregation, Binary, Call, ManyToOne, Matcher, Matching, Number, OneToMany, Paren, RangeSelector, Selector, String, Subquery, Unary

CHANGED = int(os.environ.get("PROMQL_CHANGED", "300"))
QUERIES = Path(__file__).parents[3] / "bench" / "queries" / "queries.txt"
FORMS = (
    *("1", "-Inf", "NaN", "'a\"\\\\b\\n\\x00\\x1f\\x7f'", '"é\u2028🦀"', "-(foo)", "{a='1', b!~'2'}", "{'a b'='c', '🦀'=~'d'}", "time()"),
    *("foo{a='1' or b=~'2', c!='3'} offset -5m @ end()", "foo[5m] anchored @ -1.5", "foo[5m] smoothed @ start()", "up[1h:]"),
    *("up[1h:5m] @ start() offset 1m", "sum without (a) (up)", "topk by (a, b) (5, up)", "round(a, 2)", "a == bool 1"),
    *("a and on (b) c", "a / ignoring (b) group_left (c) d", "a + on (b) group_right fill_left (1) d", "a * on () fill (2) b"),
    *("label_join(a, 'b', 'c', 'd')", "a @ 1e15", "a offset 1000y", "sort_by_label(a, 'b')", "count_values('a', b)"),
)
TEXTS = ("", "a", "a b", "é", "🦀", '"', "\\", "\0", "\x1f\x7f\n\t\r\b\f", "__name__", "{}", "\ud800", "x" * 300, "sum", "-", "==", "and", "end", "1")
NUMBERS = (0, 1, -1, 300_000, 2**63 - 1, 2**63, 2**64 - 1, -(2**63))
# Pieces of forms, for texts that are changed.
PIECES = ('"', "\\", "{", "}", "[", "]", ",", ":", "null", "true", "\\u0000", "\\u00e9", "\\ud800", "-", "0", "18446744073709551616", "é", " ", "expr")


def queries():
    return [*QUERIES.read_text(encoding="utf-8").splitlines(), *FORMS]


def random_texts(generator):
    return tuple(generator.choice(TEXTS) for _ in range(generator.randrange(3)))


def random_matchers(generator):
    ops = ("=", "!=", "=~", "!~", "==", "")
    return tuple(Matcher(generator.choice(TEXTS), generator.choice(ops), generator.choice(TEXTS)) for _ in range(generator.randrange(3)))


def random_matching(generator):
    texts = random_texts(generator)
    card = generator.choice(("one-to-one", "many-to-many", "", ManyToOne(texts), OneToMany(texts)))
    fill_left, fill_right = generator.choice((None, *TEXTS)), generator.choice((None, None, *TEXTS))
    return generator.choice((None, Matching(generator.random() < 0.5, random_texts(generator), card, fill_left, fill_right)))


def changed_fields(generator, node):
    """A field of the node, which is no expression, with another value."""
    kinds = {
        **dict.fromkeys(("op", "value"), lambda: generator.choice(TEXTS)),
        "name": lambda: generator.choice(TEXTS if isinstance(node, Call) else (None, *TEXTS)),
        **dict.fromkeys(("without", "return_bool"), lambda: generator.random() < 0.5),
        **dict.fromkeys(("range", "offset"), lambda: generator.choice(NUMBERS)),
        "step": lambda: generator.choice((None, *NUMBERS)),
        "at": lambda: generator.choice((None, "start", "end", "", *NUMBERS)),
        "mode": lambda: generator.choice((None, "smoothed", "anchored", "é")),
        "grouping": lambda: random_texts(generator),
        "matchers": lambda: random_matchers(generator),
        "or_matchers": lambda: tuple(random_matchers(generator) for _ in range(generator.randrange(3))),
        "matching": lambda: random_matching(generator),
    }
    names = [name for name in node.field_names() if name in kinds]
    name = generator.choice(names) if names else None
    return node.replace(**{name: kinds[name]()}) if name else Paren(node)


def changed(generator, expr, exprs):
    place = generator.randrange(sum(1 for _ in expr.walk()))
    count = iter(range(10**6))

    def change(node):
        if next(count) != place:
            return node
        return generator.choice(exprs) if generator.random() < 0.2 else changed_fields(generator, node)

    return tree.transform(expr, change)


def text_by_package(expr):
    """The form's text as the package writes it, its members in order, or None where it does not."""
    try:
        return json.dumps(form_of(expr), ensure_ascii=False, separators=(",", ":"), sort_keys=True)
    except tree.NodeError:
        return None


def text_by_extension(expr):
    return _node_calls.form_text(expr)


def answer_by_package(expr, mode=0, width=0):
    return calls.print_tree(json.dumps(form_of(expr), ensure_ascii=False, separators=(",", ":")), mode, 1, width, 1)


@unittest.skipIf(_node_calls is None, "no extension makes nodes")
class Same(unittest.TestCase):
    def check_tree(self, expr):
        text = text_by_package(expr)
        has_surrogate = text is not None and any("\ud800" <= it < "\ue000" for it in text)
        self.assertEqual(text_by_extension(expr), None if has_surrogate else text)
        if text is None or has_surrogate:
            self.assertIsNone(_node_calls.print_nodes(expr, 0, 0, 0))
            return
        for mode, width in (0, 0), (1, 20), (9, 0):
            self.assertEqual(_node_calls.print_nodes(expr, mode, 1, width), answer_by_package(expr, mode, width))
        read = _node_calls.read_form(text)
        if read is not None:
            self.assertEqual(read, expr)
            self.assertEqual(repr(read), repr(expr))

    def test_queries(self):
        for query in queries():
            text = calls.json(query)
            if not isinstance(text, str):
                self.assertEqual(_node_calls.read_tree(query), text)
                continue
            expr = _node_calls.read_tree(query)
            self.assertEqual(expr, tree_of(json.loads(text)), query)
            self.assertEqual(text_by_extension(expr), text)
            self.check_tree(expr)

    def test_changed_trees(self):
        generator = random.Random(80)
        exprs = [tree_of(promql.parse(query)) for query in queries() if isinstance(calls.json(query), str)]
        for _ in range(CHANGED):
            expr = generator.choice(exprs)
            for _ in range(generator.randrange(1, 4)):
                expr = changed(generator, expr, exprs)
            self.check_tree(expr)

    def test_changed_texts(self):
        """A text is read as the package reads it, or not at all; not at all where the package does not."""
        generator = random.Random(81)
        texts = [text for text in map(calls.json, queries()) if isinstance(text, str)]
        count = 0
        for _ in range(CHANGED):
            text = generator.choice(texts)
            for _ in range(generator.randrange(1, 3)):
                if generator.random() < 0.3:
                    # (often a form again)
                    text = text.replace('"a"', json.dumps(generator.choice(TEXTS), ensure_ascii=False), 1)
                    continue
                start = generator.randrange(len(text))
                end = min(len(text), start + generator.choice((0, 0, 1, 1, 2, 9)))
                middle = generator.choice(("", *PIECES, text[end : end + 9]))
                text = text[:start] + middle + text[end:]
            try:
                read = _node_calls.read_form(text)
            except UnicodeEncodeError:
                continue
            if read is not None:
                count += 1
                self.assertEqual(read, tree_of(json.loads(text)), text)
        self.assertGreater(count, CHANGED // 20)

    def test_cut_texts(self):
        for query in FORMS:
            text = calls.json(query)
            for end in range(len(text)):
                self.assertIsNone(_node_calls.read_form(text[:end]))
            self.assertIsNone(_node_calls.read_form(text + " "))
            self.assertIsNotNone(_node_calls.read_form(text))

    def test_words_are_one_object(self):
        one, two = (tree.parse(f"a{{b{op}'c'}} @ end()") for op in ("=~", "!~"))
        self.assertIs(one.matchers[0].op, sys.intern("=~"))
        self.assertIs(one.at, two.at)

    def test_heights(self):
        for height in (1, 126, 127, 128, 511):
            query = "(" * height + "a" + ")" * height
            expr = tree.parse(query)
            self.assertEqual(sum(1 for _ in expr.walk()), height + 1)
            self.assertEqual(text_by_extension(expr) is None, height >= 127)
            text = calls.json(query)
            self.assertEqual(_node_calls.read_form(text), expr)
        self.assertIsNone(_node_calls.read_form('{"expr":' * 512 + text + ',"type":"parenExpr"}' * 512))
        for sign in "[", '{"args":[', '{"expr":', '{"bool":true,"lhs":':
            self.assertIsNone(_node_calls.read_form(sign * 1_000_000))

    def test_no_nodes(self):
        """What has no form of its own is left to the package."""
        class Named(Selector):
            pass

        empty = Selector.__new__(Selector)
        wrong = Selector("a")
        object.__setattr__(wrong, "matchers", ["a"])
        for it in (None, 1, "a", Matcher("a", "=", "b"), Matching(), Named("a"), empty, Paren(Named("a")), wrong, Call("nosuch"), Selector):
            self.assertIsNone(_node_calls.form_text(it))
            self.assertIsNone(_node_calls.print_nodes(it, 0, 0, 0))
        self.assertEqual(str(Named("a")), "a")
        self.assertRaises(TypeError, _node_calls.read_tree, b"a")
        self.assertRaises(TypeError, _node_calls.read_form, None)
        self.assertRaises(UnicodeEncodeError, _node_calls.read_tree, "\ud800")

    def test_below_itself(self):
        expr = Paren(Selector("a"))
        object.__setattr__(expr, "expr", expr)
        self.assertIsNone(_node_calls.form_text(expr))
        shared = Selector("a")
        for _ in range(60):
            shared = Binary(shared, "+", shared)
        self.assertIsNone(_node_calls.print_nodes(shared, 0, 0, 0))

    def test_references(self):
        """Reading and writing keep nothing, and lose nothing."""
        query, wrong = QUERIES.read_text(encoding="utf-8").splitlines()[0], '{"bool":false,"lhs":{"type":"numberLiteral","val":"é"},"matching":'
        expr = tree.parse(query)
        before = 0
        for round_ in range(3):
            for _ in range(100):
                tree.parse(query), str(expr), _node_calls.read_form(wrong), _node_calls.form_text(Paren(Call("nosuch")))
            gc.collect()
            blocks = sys.getallocatedblocks()
            if round_:
                self.assertLess(blocks - before, 50)
            before = blocks

    def test_memory(self):
        """A tree of 100,000 nodes takes less than 60 MB, while it is read too."""
        limits = promql.limits()
        promql.set_limits(max_len=4_000_000, max_output=60_000_000)
        query = "label_join(up, %s)" % ", ".join(f'"l{number}"' for number in range(99_998))
        tracemalloc.start()
        try:
            expr = tree.parse(query)
            peak = tracemalloc.get_traced_memory()[1]
        finally:
            tracemalloc.stop()
            promql.set_limits(**limits)
        self.assertEqual(sum(1 for _ in expr.walk()), 100_000)
        self.assertLess(peak, 60_000_000)

    def test_learn(self):
        for wrong in ((), (1, {}), ((), {}), (((),) * 14, {}), (((Selector, (1,) * 9),) * 14, {})):
            self.assertRaises((TypeError, ValueError), _node_calls.learn_nodes, *wrong)


class Slots(unittest.TestCase):
    def test_nodes_have_no_dictionary(self):
        for kind in (Aggregation, Binary, Call, Number, Paren, RangeSelector, Selector, String, Subquery, Unary, Matcher, Matching, ManyToOne, OneToMany):
            self.assertFalse(hasattr(kind.__new__(kind), "__dict__"), kind)

    def test_frozen(self):
        expr = tree.parse("sum(up)", places=True)
        for name in ("op", "place", "other", "_place"):
            with self.assertRaises(AttributeError):
                setattr(expr, name, None)
            with self.assertRaises(AttributeError):
                delattr(expr, name)
        self.assertEqual(expr.place, (0, 7))

    def test_copies(self):
        expr = tree.parse("sum by (a) (up{b='c'} offset 5m)", places=True)
        for protocol in range(pickle.HIGHEST_PROTOCOL + 1):
            copied = pickle.loads(pickle.dumps(expr, protocol))
            self.assertEqual((copied, copied.place, copied.expr.place), (expr, expr.place, expr.expr.place))
        for copied in (copy.copy(expr), copy.deepcopy(expr)):
            self.assertEqual((copied, copied.place), (expr, expr.place))
        self.assertIs(weakref.ref(expr)(), expr)
        self.assertIsNone(Selector("a").place)

    def test_subclasses(self):
        class Named(Selector):
            def __init__(self, name, more):
                super().__init__(name)
                self.more = more

        named = Named("a", 1)
        with self.assertRaises(AttributeError):
            named.name = "b"
        del named.more
        named.more = 2
        self.assertEqual((named.more, str(named)), (2, "a"))
        self.assertEqual(pickle.loads(pickle.dumps(Matcher("a", "=", "b"))), Matcher("a", "=", "b"))


if __name__ == "__main__":
    unittest.main()
