"""Tests of trees with Grafana's variables: python3 -m unittest discover -s tests, where Python finds the package."""

import re
import unittest

import promql
from grafana_queries import LAID_OUT, LEFT, QUERIES, VALUES, WRONG
from promql import templates, tree
from promql.tree import Aggregation, Binary, Call, Matcher, Number, RangeSelector, Selector, Subquery

SPELLINGS = re.compile("|".join(map(re.escape, sorted(VALUES, key=len, reverse=True))))


def with_values(query):
    """The query as Grafana would send it."""
    return SPELLINGS.sub(lambda found: VALUES[found[0]], query)


class Templates(unittest.TestCase):
    def test_queries(self):
        """The text of a query's tree is the query, in another spelling: with values for the variables both mean the same."""
        for query in QUERIES:
            with self.subTest(query):
                template = templates.parse(query)
                for width in None, 20:
                    text = template.text(width=width)
                    self.assertEqual(sorted(SPELLINGS.findall(text)), sorted(SPELLINGS.findall(query)))
                    self.assertEqual(promql.canonical(with_values(text)), promql.canonical(with_values(query)))
                self.assertEqual(templates.parse(template.text()).text(), template.text())

    def test_lines(self):
        for query, text in LAID_OUT.items():
            if "\n" not in text:
                self.assertEqual(templates.parse(query).text(), text)

    def test_places_in_a_tree(self):
        template = templates.parse("topk($n, rate(foo{job=~'$job'}[$__rate_interval] @ $t)) > ${x} / sum_over_time(a[$range:$step] offset $back)")
        values = {it.variable: it.value for it in template.stand_ins}
        top, ratio = template.expr.lhs, template.expr.rhs
        self.assertEqual(list(values), ["$n", "'$job'", "$__rate_interval", "$t", "${x}", "$range", "$step", "$back"])
        self.assertIsInstance(ratio, Binary)
        self.assertIsInstance(top, Aggregation)
        self.assertEqual(top.param, Number(values["$n"]))
        selector = RangeSelector("foo", values["$__rate_interval"], (Matcher("job", "=~", values["'$job'"]),), at=values["$t"])
        self.assertEqual(top.expr, Call("rate", (selector,)))
        self.assertEqual(ratio.lhs, Selector(values["${x}"]))
        self.assertEqual(ratio.rhs.args[0], Subquery(Selector("a"), values["$range"], values["$step"], values["$back"]))
        self.assertEqual([it.text in str(template.expr) for it in template.stand_ins], [True] * 8)

    def test_changed_trees(self):
        template = templates.parse("sum(rate(foo[$__rate_interval])) / $limit")
        changed = tree.transform(
            template.expr, lambda it: it.with_matcher(Matcher("tenant", "=", "a")) if isinstance(it, (Selector, RangeSelector)) else it
        )
        self.assertEqual(template.text(changed), 'sum(rate(foo{tenant="a"}[$__rate_interval])) / $limit{tenant="a"}')
        self.assertEqual(template.text(Aggregation("max", template.expr.lhs)), "max(sum(rate(foo[$__rate_interval])))")
        self.assertEqual(template.text(Selector("up")), "up")
        twice = Binary(template.expr.lhs, "-", template.expr.lhs)
        self.assertEqual(template.text(twice), "sum(rate(foo[$__rate_interval])) - sum(rate(foo[$__rate_interval]))")

    def test_what_would_not_come_back(self):
        """A name that has what stands for a variable in it is none of the query."""
        template = templates.parse("a + $limit")
        (stand_in,) = template.stand_ins
        for name in (f"{stand_in.text}x", f"x_{stand_in.text}_total"):
            with self.subTest(name), self.assertRaises(templates.TemplateError):
                template.text(Selector(name))
        self.assertEqual(template.text(Selector(f"x:{stand_in.text}")), "x:$limit")
        with self.assertRaises(templates.TemplateError):
            template.text(Selector("a", (Matcher("b", "=", f"$limit {stand_in.text}"),)))
        with self.assertRaises(tree.NodeError):
            template.text(Call("nosuch"))

    def test_wrong(self):
        for query, *_ in WRONG:
            with self.subTest(query), self.assertRaises(promql.QueryError):
                templates.parse(query)
        for query in LEFT:
            with self.subTest(query), self.assertRaises((promql.QueryError, templates.TemplateError)):
                templates.parse(query)
        self.assertRaises(templates.TemplateError, templates.parse, "1$x-5")
        self.assertRaises(templates.TemplateError, templates.parse, "$a + " * 700 + "$a")
        self.assertRaises(UnicodeEncodeError, templates.parse, "\ud800")
        self.assertRaises(TypeError, templates.parse, b"a")

    def test_without_variables(self):
        template = templates.parse("a+b")
        self.assertEqual((template.text(), template.stand_ins, template.expr), ("a + b", (), tree.parse("a + b")))


if __name__ == "__main__":
    unittest.main()
