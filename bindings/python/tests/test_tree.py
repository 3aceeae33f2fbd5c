"""Tests of promql.tree: python3 -m unittest discover -s tests, where Python finds the package. bindings/trees.py has those over the rows."""

import dataclasses
import pickle
import sys
import unittest
from datetime import timedelta
from decimal import Decimal

import promql
from promql import tree
from promql._calls import calls
from promql.functions import FUNCTIONS
from promql.tree import (
    Aggregation,
    Binary,
    Call,
    ManyToOne,
    Matcher,
    Matching,
    Number,
    OneToMany,
    Paren,
    RangeSelector,
    Selector,
    String,
    Subquery,
    Unary,
)

# A query and its tree.
TREES = (
    ("1", Number("1")),
    ("'a\"b'", String('a"b')),
    ("-(foo)", Unary(Paren(Selector("foo")))),
    ("{a='1', b!~'2'}", Selector(None, (Matcher("a", "=", "1"), Matcher("b", "!~", "2")))),
    ("foo{a='1' or b=~'2', c!='3'} offset -5m @ end()", Selector(
        "foo",
        or_matchers=((Matcher("a", "=", "1"),), (Matcher("b", "=~", "2"), Matcher("c", "!=", "3"))),
        offset=-300_000,
        at="end",
    )),
    ("foo[5m] anchored @ -1.5", RangeSelector("foo", 300_000, at=-1500, mode="anchored")),
    ("up[1h:]", Subquery(Selector("up"), 3_600_000)),
    ("up[1h:5m] @ start() offset 1m", Subquery(Selector("up"), 3_600_000, 300_000, 60_000, "start")),
    ("sum without (a) (up)", Aggregation("sum", Selector("up"), ("a",), without=True)),
    ("topk by (a, b) (5, up)", Aggregation("topk", Selector("up"), ("a", "b"), param=Number("5"))),
    ("time()", Call("time")),
    ("round(a, 2)", Call("round", (Selector("a"), Number("2")))),
    ("a == bool 1", Binary(Selector("a"), "==", Number("1"), True, Matching())),
    ("a and on (b) c", Binary(Selector("a"), "and", Selector("c"), matching=Matching(True, ("b",), "many-to-many"))),
    ("a / ignoring (b) group_left (c) d", Binary(
        Selector("a"), "/", Selector("d"), matching=Matching(labels=("b",), card=ManyToOne(("c",)))
    )),
    ("a + on (b) group_right fill_left (1) d", Binary(
        Selector("a"), "+", Selector("d"), matching=Matching(True, ("b",), OneToMany(), fill_left="1")
    )),
)
NAME = {"name": "up", "matchers": [], "offset": 0, "startOrEnd": None, "timestamp": None, "type": "vectorSelector"}
# What is no form, and what is said of it.
NO_FORMS = (
    (None, "$: expected an object"),
    ({}, "$.type: expected such a member"),
    ({"type": "number"}, "$.type: expected one of aggregation, binaryExpr, call, numberLiteral, parenExpr, matrixSelector, vectorSelector, "
     "stringLiteral, subquery, unaryExpr"),
    ({"type": "numberLiteral", "val": 1}, "$.val: expected a string"),
    ({"type": "numberLiteral", "val": "1", "more": 0}, "$.more: unknown member"),
    ({"type": "parenExpr", "expr": {**NAME, "offset": 1.5}}, "$.expr.offset: expected a whole number"),
    ({"type": "parenExpr", "expr": {**NAME, "offset": True}}, "$.expr.offset: expected a whole number"),
    ({"type": "unaryExpr", "op": "+", "expr": NAME}, "$.op: expected one of -"),
    ({**NAME, "matchers": [{"name": "a", "type": "=", "value": "1"}, {"name": "b"}]}, "$.matchers[1].type: expected such a member"),
    ({**NAME, "or_matchers": [[], [{"name": "a", "type": "~", "value": "1"}]]}, "$.or_matchers[1][0].type: expected one of =, !=, =~, !~"),
    ({**NAME, "or_matchers": []}, "$.or_matchers: expected a group"),
    ({**NAME, "startOrEnd": "end", "timestamp": 1}, "$.timestamp: expected null beside startOrEnd"),
    ({"type": "call", "args": [NAME, 1], "func": FUNCTIONS["abs"].to_json()}, "$.args[1]: expected an object"),
    ({"type": "call", "args": [], "func": {"name": "rates"}}, "$.func.name: expected the name of a function"),
    ({"type": "call", "args": [], "func": {**FUNCTIONS["abs"].to_json(), "variadic": 1}}, "$.func: expected the function abs"),
)


MATCH = """
match expr:
    case Call(name, (RangeSelector(range=length),)):
        found.append(("call", name, length))
    case Aggregation("sum", Selector(), grouping=labels):
        found.append(("sum", labels))
    case Binary(Selector(matchers=(Matcher(label, "="),)), "+", Number(value)):
        found.append(("binary", label, value))
"""


def has_print_tree():
    try:
        calls.print_tree("1", 0, 0, 0, True)
    except AttributeError:
        return False
    return True


def with_matchers(expr):
    return expr.with_matcher(Matcher("t", "=", "1")) if isinstance(expr, (Selector, RangeSelector)) else expr


class Trees(unittest.TestCase):
    def test_parse(self):
        for query, wanted in TREES:
            expr = tree.parse(query)
            self.assertEqual(expr, wanted, query)
            self.assertEqual(expr.to_json(), promql.parse(query))
            self.assertEqual(tree.from_json(expr.to_json()), expr)
            self.assertEqual(eval(repr(expr), vars(tree)), expr)
            self.assertEqual(pickle.loads(pickle.dumps(expr)), expr)
        with self.assertRaises(promql.QueryError):
            tree.parse("1 +")

    def test_repr(self):
        self.assertEqual(repr(tree.parse("rate(foo[5m])")), "Call('rate', args=(RangeSelector('foo', 300000),))")
        self.assertEqual(repr(Matching(True, ("a",))), "Matching(on=True, labels=('a',))")

    def test_no_forms(self):
        for form, message in NO_FORMS:
            with self.assertRaises(tree.FormError) as raised:
                tree.from_json(form)
            self.assertEqual(str(raised.exception), message)

    def test_frozen(self):
        expr = tree.parse("up")
        with self.assertRaises(AttributeError):
            expr.name = "down"
        self.assertEqual(len({tree.parse("a + b"), tree.parse("a+b"), tree.parse("a - b")}), 2)

    def test_walk(self):
        found = [type(expr).__name__ for expr in tree.parse("topk(5, rate(a[1m])) + -b").walk()]
        self.assertEqual(found, ["Binary", "Aggregation", "Number", "Call", "RangeSelector", "Unary", "Selector"])
        self.assertEqual(tree.parse("topk(5, a)").children(), (Number("5"), Selector("a")))

    def test_places(self):
        query = "sum by (job) (\n  rate(a{job='é'}[5m]) # it\n) / -1"
        expr = tree.parse(query, places=True)
        self.assertEqual(
            [query[slice(*node.place)] for node in expr.walk()],
            [query, query[: query.index(" /")], "rate(a{job='é'}[5m])", "a{job='é'}[5m]", "-1"],
        )
        self.assertEqual(expr, tree.parse(query))
        self.assertIsNone(tree.parse(query).place)
        self.assertIsNone(expr.replace(op="*").place)
        self.assertEqual(pickle.loads(pickle.dumps(expr)).place, (0, len(query)))
        self.assertEqual(promql.places("topk(5, a offset 5m)"), [(0, 20), (5, 6), (8, 19)])
        with self.assertRaises(promql.QueryError):
            promql.places("a +")

    def test_places_are_those_of_prometheus(self):
        """Typed from what Prometheus's parser gives as a node's range: from its first token to its last, modifiers and signs included."""
        whole = ["1", "-1", "+Inf", "foo", "foo{a='b'}", "{a='b'} offset 5m", "foo OFFSET 1h30m", "foo @ 17", "foo @ end() offset -5m", "test[5s]", "test[5s] @ 3", "time()"]
        for query in whole:
            with self.subTest(query):
                self.assertEqual(promql.places(f" {query} "), [(1, len(query) + 1)])
        for query, texts in (
            ("-foo", ["-foo", "foo"]),
            ("1 + 2/(3*1)", ["1 + 2/(3*1)", "1", "2/(3*1)", "2", "(3*1)", "3*1", "3", "1"]),
            ("foo*bar offset 5m", ["foo*bar offset 5m", "foo", "bar offset 5m"]),
            ("(foo) and on (x) ( bar )", ["(foo) and on (x) ( bar )", "(foo)", "foo", "( bar )", "bar"]),
            ("sum by (foo)(a)", ["sum by (foo)(a)", "a"]),
            ("sum(a) without (foo)", ["sum(a) without (foo)", "a"]),
            ("topk(5, a{b='c'})", ["topk(5, a{b='c'})", "5", "a{b='c'}"]),
            ("count_values('v', a)", ["count_values('v', a)", "'v'", "a"]),
            ("rate(a[5m] offset 1m)", ["rate(a[5m] offset 1m)", "a[5m] offset 1m"]),
            ("a{b='c'}[10m:6s]", ["a{b='c'}[10m:6s]", "a{b='c'}"]),
            ("(a + b)[5m:] @ 16 offset 1m", ["(a + b)[5m:] @ 16 offset 1m", "(a + b)", "a + b", "a", "b"]),
            ("-a ^ 2", ["-a ^ 2", "a ^ 2", "a", "2"]),
            ("a - -b", ["a - -b", "a", "-b", "b"]),
        ):
            with self.subTest(query):
                self.assertEqual([query[slice(*place)] for place in promql.places(query)], texts)

    def test_replace(self):
        expr = tree.parse("sum(up)")
        self.assertEqual(expr.replace(op="max", grouping=("job",)), tree.parse("max by (job) (up)"))
        self.assertEqual(expr.with_children([Selector("down")]), tree.parse("sum(down)"))
        self.assertRaises(TypeError, expr.replace, name="up")
        self.assertRaises(ValueError, expr.with_children, [])

    def test_transform(self):
        query = "sum(rate(a{b='1' or c='2'}[5m])) / topk(scalar(d), e[5m:])"
        changed = tree.transform(tree.parse("sum(rate(a{b='1' or c='2'}[5m])) / d"), with_matchers)
        self.assertEqual(changed, tree.parse("sum(rate(a{b='1',t='1' or c='2',t='1'}[5m])) / d{t='1'}"))
        expr = tree.parse("a + -b")
        self.assertIs(tree.transform(expr, lambda it: it), expr)
        seen = []
        tree.transform(tree.parse("a + b * c"), lambda it: seen.append(repr(it)) or it)
        self.assertEqual([it[:12] for it in seen], ["Selector('a'", "Selector('b'", "Selector('c'", "Binary(Selec", "Binary(Selec"])
        self.assertRaises(promql.QueryError, tree.parse, query)

    @unittest.skipIf(sys.version_info < (3, 10), "this Python has no match")
    def test_match(self):
        names = dict(vars(tree), found=[])
        for query in ("rate(foo[5m])", "sum by (job) (foo)", "foo{a='1'} + 2"):
            exec(MATCH, {**names, "expr": tree.parse(query)})
        self.assertEqual(names["found"], [("call", "rate", 300_000), ("sum", ("job",)), ("binary", "a", "2")])

    def test_fields(self):
        """A value of another type is an error that names the field, where the node is made."""
        up, matcher = Selector("up"), Matcher("a", "=", "1")
        for made, message in (
            (lambda: Unary("foo"), "Unary.expr: expected an expression, got str"),
            (lambda: Paren(None), "Paren.expr: expected an expression, got NoneType"),
            (lambda: Selector("a", [matcher]), "Selector.matchers: expected a tuple of Matcher, got list"),
            (lambda: Selector("a", (matcher, "b")), "Selector.matchers[1]: expected Matcher"),
            (lambda: Selector("a", or_matchers=((matcher,), [matcher])), "Selector.or_matchers[1]: expected a tuple of Matcher"),
            (lambda: RangeSelector("a", 1, or_matchers=((matcher, 1),)), "RangeSelector.or_matchers[0][1]: expected Matcher"),
            (lambda: RangeSelector("a", 1.5), "RangeSelector.range: expected a whole number, got float"),
            (lambda: RangeSelector("a", True), "RangeSelector.range: expected a whole number, got bool"),
            (lambda: Subquery(up, 1, "5m"), "Subquery.step: expected a whole number or None, got str"),
            (lambda: Selector("a", at=1.5), "Selector.at: expected a whole number, a string or None, got float"),
            (lambda: Selector(1), "Selector.name: expected a string or None, got int"),
            (lambda: Call("abs", [up]), "Call.args: expected a tuple of expressions, got list"),
            (lambda: Call("abs", (up, "b")), "Call.args[1]: expected an expression"),
            (lambda: Aggregation("sum", up, ["a"]), "Aggregation.grouping: expected a tuple of strings, got list"),
            (lambda: Aggregation("sum", up, "job"), "Aggregation.grouping: expected a tuple of strings, got str"),
            (lambda: Aggregation("sum", up, ("a", 1)), "Aggregation.grouping[1]: expected a string"),
            (lambda: Aggregation("topk", up, param=5), "Aggregation.param: expected an expression or None, got int"),
            (lambda: Binary(up, "+", up, matching="on"), "Binary.matching: expected Matching or None, got str"),
            (lambda: Matching(labels=["a"]), "Matching.labels: expected a tuple of strings, got list"),
            (lambda: Matching(card=None), "Matching.card: expected a string, ManyToOne or OneToMany, got NoneType"),
            (lambda: ManyToOne("a"), "ManyToOne.labels: expected a tuple of strings, got str"),
            (lambda: Matching(fill_left=1), "Matching.fill_left: expected a string or None, got int"),
            (lambda: Matcher("a", "=", 1), "Matcher.value: expected a string, got int"),
            (lambda: Number(1), "Number.value: expected a string, got int"),
            (lambda: String(b"a"), "String.value: expected a string, got bytes"),
            (lambda: up.replace(matchers=[matcher]), "Selector.matchers: expected a tuple of Matcher, got list"),
            (lambda: dataclasses.replace(up, offset=None), "Selector.offset: expected a whole number, got NoneType"),
            (lambda: up.with_matcher("a"), "Selector.matchers[0]: expected Matcher"),
            (lambda: Paren(up).with_children(["a"]), "Paren.expr: expected an expression, got str"),
            (lambda: tree.transform(Paren(up), lambda it: None), "Paren.expr: expected an expression, got NoneType"),
        ):
            with self.subTest(message), self.assertRaises(TypeError) as raised:
                made()
            self.assertEqual(str(raised.exception), message)
        for number in (2**64, -(2**63) - 1, 10**5000):
            self.assertRaises(ValueError, RangeSelector, "a", number)

    def test_high_trees(self):
        expr = Selector("a")
        for _ in range(5 * sys.getrecursionlimit()):
            expr = Paren(expr)
        count = sum(1 for _ in expr.walk())
        self.assertEqual(count, 5 * sys.getrecursionlimit() + 1)
        changed = tree.transform(expr, lambda it: it.expr if isinstance(it, Paren) else it)
        self.assertEqual(changed, Selector("a"))
        self.assertEqual(sum(1 for _ in tree.from_json(expr.to_json()).walk()), count)

    def test_numbers(self):
        for value, text in (
            *((0, "0"), (-3, "-3"), (0.5, "0.5"), (1e21, "1000000000000000000000"), (-0.0, "0"), (1e-7, "0.0000001")),
            *((Decimal("1.50"), "1.5"), (float("inf"), "Inf"), (float("-inf"), "-Inf"), (float("nan"), "NaN"), (100, "100")),
        ):
            self.assertEqual(Number.of(value), Number(text))
        self.assertEqual(Number("0.1").decimal(), Decimal("0.1"))

    def test_milliseconds(self):
        for words, count in ({"minutes": 5}, 300_000), ({"milliseconds": -1}, -1), ({"days": 1, "microseconds": -1000}, 86_399_999), ({}, 0):
            self.assertEqual(tree.milliseconds(timedelta(**words)), count)
        for wrong in (timedelta(microseconds=1), timedelta(microseconds=-1500), timedelta.max):
            self.assertRaises(ValueError, tree.milliseconds, wrong)
        self.assertRaises(TypeError, tree.milliseconds, 5)

    def test_functions(self):
        self.assertEqual(tree.parse("rate(a[1m])").function, FUNCTIONS["rate"])
        self.assertIsNone(Call("rates").function)
        expr = Binary(Number("1"), "+", Aggregation("sum", Call("rates")))
        with self.assertRaises(tree.NodeError) as raised:
            expr.to_json()
        self.assertEqual(str(raised.exception), "$.rhs.expr.func.name: there is no function 'rates'")
        self.assertIs(raised.exception.node, expr.rhs.expr)


@unittest.skipUnless(has_print_tree(), "the library has no promql_print_tree")
class Texts(unittest.TestCase):
    def test_lines(self):
        for query, expr in TREES:
            self.assertEqual(str(expr), promql.canonical(query))

    def test_parentheses(self):
        total = Binary(Selector("a"), "+", Selector("b"))
        self.assertEqual(str(Binary(total, "*", Selector("c"))), "(a + b) * c")
        self.assertEqual(str(Subquery(total, 60_000)), "(a + b)[1m:]")
        self.assertEqual(str(Aggregation("sum", total)), "sum(a + b)")

    def test_parts(self):
        for text in ('a="b"', 'a!=""', '"a b"=~"c.*"', '__name__="up"', '__name__!~"a|b"', r'a="\""'):
            (matcher,) = tree.parse("{%s,z='z'}" % text).matchers[:1]
            self.assertEqual(str(matcher), text)
        self.assertEqual((str(tree.Matching()), str(tree.Matching(card="many-to-many"))), ("", ""))
        for text in ("on ()", "on (a, b) group_left (c)", 'ignoring ("a b")', "ignoring () group_right ()", "on () fill_left (1)"):
            self.assertEqual(str(tree.parse(f"x * {text} y").matching), text)
        self.assertEqual(str(tree.parse("x unless on (a) y").matching), "on (a)")
        for part, message in (
            (tree.Matcher("a", "=~", "(("), "$.matchers[0].value: a pattern"),
            (tree.Matcher("__name__", "==", "b"), '$.matchers[0].type: =, !=, =~ or !~'),
            (tree.Matching(on=True, card="many-to-any"), "$.matching.card"),
        ):
            with self.assertRaises(tree.NodeError) as caught:
                str(part)
            self.assertIn(message, str(caught.exception))

    def test_layouts(self):
        expr = tree.parse("sum by (job) (rate(foo[5m]))")
        self.assertEqual(expr.pretty(width=20, level=1), promql.pretty(str(expr), width=20, level=1))
        self.assertEqual(expr.pretty(), str(expr))

    def check_error(self, expr, path, node):
        with self.assertRaises(tree.NodeError) as raised:
            str(expr)
        error = raised.exception
        self.assertEqual(error.node, node, error)
        self.assertTrue(error.path.startswith(path) and error.message, error)
        return error

    def test_errors(self):
        wrong = Call("rate", (Selector("foo"),))
        error = self.check_error(Binary(Number("1"), "+", Aggregation("sum", wrong)), "$.rhs.expr", wrong)
        self.assertIsInstance(error.__cause__, promql.UnfaithfulError)
        self.check_error(Aggregation("sum", Call("round", ())), "$.expr", Call("round", ()))
        pattern = Selector("a", (Matcher("b", "=~", "("),))
        self.check_error(Paren(pattern), "$.expr", pattern)
        error = self.check_error(RangeSelector("a", -1), "$.range", RangeSelector("a", -1))
        self.assertIsInstance(error.__cause__, promql.TreeError)

    def test_large(self):
        pattern = Selector("a", (Matcher("b", "=~", "c{3000}"),))
        self.assertIsInstance(self.check_error(pattern, "$", pattern).__cause__, promql.TooLargeTreeError)

    def test_deep(self):
        expr = Selector("a")
        for _ in range(200):
            expr = Paren(expr)
        self.assertEqual(str(self.check_error(expr, "$", expr)), "$: nested too deeply")
        for _ in range(2 * sys.getrecursionlimit()):
            expr = Paren(expr)
        with self.assertRaises(tree.NodeError) as raised:
            str(expr)
        self.assertEqual(raised.exception.message, "nested too deeply")


if __name__ == "__main__":
    unittest.main()
