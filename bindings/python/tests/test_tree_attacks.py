"""Trees and forms that are made to be dear: deep, wide, long, or with much of one thing. Each within bounds of time and memory."""

import sys
import time
import tracemalloc
import unittest
from decimal import Decimal

import promql
from promql import tree
from promql.tree import Aggregation, Binary, Call, ManyToOne, Matching, Number, OneToMany, Paren, Selector, Unary

UP = {"name": "up", "matchers": [], "offset": 0, "startOrEnd": None, "timestamp": None, "type": "vectorSelector"}
ONE = {"type": "numberLiteral", "val": "1"}


def high_form(count):
    form = UP
    for _ in range(count):
        form = {"type": "parenExpr", "expr": form}
    return form


def high_tree(count):
    kinds = (Paren, Unary, lambda expr: Call("abs", (expr,)), lambda expr: Aggregation("sum", expr))
    expr = Selector("a")
    for number in range(count):
        expr = kinds[number % len(kinds)](expr)
    return expr


class Attacks(unittest.TestCase):
    def within(self, function, seconds=10, megabytes=200):
        """What a function returns or raises, if it takes no more."""
        tracemalloc.start()
        begun = time.process_time()
        try:
            outcome = function()
        except (promql.Error, ValueError) as error:
            outcome = error
        took, (_, peak) = time.process_time() - begun, tracemalloc.get_traced_memory()
        tracemalloc.stop()
        self.assertLess(took, seconds)
        self.assertLess(peak / 2**20, megabytes)
        return outcome

    def test_high_forms(self):
        form = high_form(40_000)
        expr = self.within(lambda: tree.from_json(form))
        self.assertEqual(sum(1 for _ in expr.walk()), 40_001)
        self.assertEqual(self.within(lambda: tree.from_json(expr.to_json())), expr)
        self.assertEqual(self.within(lambda: str(self.within_error(expr))), "$: nested too deeply")
        wrong = self.within(lambda: tree.from_json({"type": "parenExpr", "expr": high_form(99_999)}), megabytes=300)
        self.assertEqual(wrong.message, "expected a tree of at most 100,000 nodes above one another")
        self.assertEqual(wrong.path, "$" + ".expr" * 100_000)

    @staticmethod
    def within_error(expr):
        try:
            return str(expr)
        except tree.NodeError as error:
            return error

    def test_high_trees(self):
        """Equal, hashed and shown without recursion."""
        for count in (511, 5_000):
            one, two = high_tree(count), high_tree(count)
            self.assertEqual(self.within(lambda: (one == two, hash(one) == hash(two), one == Paren(two))), (True, True, False))
            self.assertEqual(self.within(lambda: repr(one)), repr(two))
            self.assertEqual(repr(one).count("("), repr(one).count(")"))
        query = "(" * 510 + "a" + ")" * 510
        self.assertEqual(tree.parse(query), tree.parse(query))
        self.assertEqual(len({tree.parse(query), tree.parse(query)}), 1)

    def test_unknown_function_below_much(self):
        expr = Call("nosuch")
        for _ in range(40_000):
            expr = Paren(expr)
        self.assertEqual(self.within(expr.to_json).path, "$" + ".expr" * 40_000 + ".func.name")

    def test_forms_below_themselves(self):
        for name, form in (("expr", {"type": "parenExpr"}), ("lhs", {"type": "binaryExpr"}), ("param", {"type": "aggregation"})):
            form.update({"expr": form, "lhs": form, "rhs": form, "param": form})
            error = self.within(lambda: tree.from_json(form), megabytes=500)
            self.assertEqual(error.message, "expected a tree of at most 100,000 nodes above one another")
            self.assertEqual(error.path, "$" + f".{name}" * 100_000)
        matchers = []
        matchers.append(matchers)
        for member in ("matchers", "or_matchers"):
            self.assertIsInstance(self.within(lambda: tree.from_json({**UP, member: matchers})), tree.FormError)

    def test_wide_forms(self):
        call = promql.parse("label_join(a, 'b', 'c')")
        form = {**call, "args": call["args"] * 10_000}
        self.assertEqual(len(self.within(lambda: tree.from_json(form)).args), 30_000)
        form = {**ONE, **{f"m{number:06}": 0 for number in range(100_000)}}
        self.assertEqual(str(self.within(lambda: tree.from_json(form))), "$.m000000: unknown member")
        form = {**UP, "matchers": [{"name": "a", "type": "=", "value": ""}] * 30_000}
        self.assertEqual(len(self.within(lambda: tree.from_json(form)).matchers), 30_000)

    def test_odd_values(self):
        for form, message in (
            ({**ONE, 10**5000: 1}, "$: expected members whose names are strings"),
            ({**UP, "offset": 10**5000}, "$.offset: expected a whole number from -2^63 to 2^64 - 1"),
            ({**UP, "offset": float("nan")}, "$.offset: expected a whole number"),
            ({**UP, "timestamp": 2**64}, "$.timestamp: expected a whole number from -2^63 to 2^64 - 1"),
            ({"type": ["parenExpr"]}, "$.type: expected one of aggregation, "),
            ({**ONE, "val": 1.0}, "$.val: expected a string"),
            ([ONE], "$: expected an object"),
        ):
            self.assertTrue(str(self.within(lambda: tree.from_json(form))).startswith(message), message)
        self.assertRaises(UnicodeEncodeError, str, tree.String("\ud800"))
        for number in (10**500_000, Decimal("1e999999999"), Decimal("1e-999999999"), Decimal("1" * 1000)):
            self.assertIsInstance(self.within(lambda: Number.of(number)), ValueError)
        for number in (sys.float_info.max, 5e-324, 2**64):
            self.assertEqual(float(Number.of(number).value), number)

    def test_fault_above_much(self):
        """It is found at a cost that grows with the tree, and not with the tree times its height."""
        wide = Call("label_join", (Selector("a"),) * 4_000)
        expr = wide
        for _ in range(50):
            expr = Paren(expr)
        error = self.within(lambda: self.within_error(Call("rate", (expr,))), megabytes=300)
        self.assertIs(error.node, wide)

    def test_lists(self):
        for count in (0, 1, 21, 1000):
            labels = ", ".join(f"l{number:04}" for number in range(count))
            items = [f'l{number:04}="1"' for number in range(max(count, 2))]
            texts = ", ".join(f'"l{number:04}"' for number in range(max(count, 3)))
            for query in (
                f"sum by ({labels}) (a)",
                f"sum without ({labels}) (a)",
                f"a + on ({labels}) b",
                f"a + ignoring (x) group_left ({labels}) b",
                f"a + on () group_right ({labels}) b",
                f"a{{{','.join(items)}}}",
                f"a{{{' or '.join(items)}}}[5m]",
                f"label_join(a, {texts})",
            ):
                expr = tree.parse(query)
                self.assertEqual(expr.to_json(), promql.parse(query))
                self.assertEqual(tree.from_json(expr.to_json()), expr)
                self.assertEqual(str(expr), promql.canonical(query))

    def test_empty_matching_below_a_grouping(self):
        for query, card in (
            ("a + ignoring () group_left () b", ManyToOne()),
            ("a + ignoring () group_right (c) b", OneToMany(("c",))),
        ):
            expr = Binary(Selector("a"), "+", Selector("b"), matching=Matching(card=card))
            self.assertEqual(tree.parse(query), expr)
            self.assertEqual(tree.from_json(expr.to_json()), expr)
            self.assertEqual(str(expr), query)

    def test_long_texts(self):
        long = "é" * 35_000
        for call in (tree.from_json, promql.print_tree):
            with self.assertRaises(promql.Error) as raised:
                call({**ONE, long: 1})
            self.assertTrue(str(raised.exception).startswith(f"$.{long}: "))
        for expr in (Call(long), Number(long), Aggregation(long, Selector("a")), Selector(long)):
            with self.assertRaises(tree.NodeError) as raised:
                str(expr)
            self.assertIs(raised.exception.node, expr)

    def test_long_names(self):
        name = "n" * 200
        query = f'sum by ({name}) ({name}{{{name}="1"}})'
        self.assertEqual(str(tree.parse(query)), query)
        with self.assertRaises(tree.NodeError) as raised:
            str(Paren(Call(name)))
        self.assertEqual(raised.exception.node, Call(name))
        with self.assertRaises(promql.QueryError) as raised:
            tree.parse(f"{name}(a)")
        self.assertEqual((raised.exception.start, raised.exception.end), (0, 200))


if __name__ == "__main__":
    unittest.main()
