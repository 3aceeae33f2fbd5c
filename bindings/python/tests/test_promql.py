"""Tests of the package promql: python3 -m unittest discover -s tests, where Python finds the package."""

import os
import pickle
import random
import sys
import threading
import unittest
from pathlib import Path
from types import MappingProxyType

import promql
from promql import _library
from promql._library import Mode, Status
from syntax_errors import NO_OPERAND, NO_OPERATOR

HERE = Path(__file__).resolve().parent
QUERIES = (
    "1 +",
    "sum by (job) (rate(http_requests_total{code=~'5..'}[5m])) / on (job) group_left up offset -5m",
    'label_replace(a, "b", "$1", "c", `d\\.(.*)`) and ignoring (e) -(f ^ 2) unless g + fill (0) rate(h[1m] anchored)',
    "a[1h:5m] @ end() # a comment\n or {b!~\"c|d\"}",
    '"é€🦀" + 0x1F',
)
# How many broken texts are tried.
BROKEN = int(os.environ.get("PROMQL_BROKEN", "10000"))
# Where the version is written once more.
VERSIONS = {
    "c/promql.h": '#define PROMQL_VERSION "{}"\n',
    "c/CMakeLists.txt": "project(promql VERSION {} ",
    "c/promql.pc": "Version: {}\n",
    "python/pyproject.toml": 'version = "{}"\n',
}
# A query, the line and the column of its error, its message, and the line of the query with its mark.
REJECTED = (
    ("sum(rate(foo[5m]) by (job)", 1, 19, "unclosed left parenthesis", "sum(rate(foo[5m]) by (job)\n" + " " * 18 + "^~"),
    ("1 +", 1, 4, NO_OPERAND, "1 +\n   ^"),
    ("", 1, 1, "no expression found in input", "\n^"),
    ("sum by (job) (\n  rate(foo[5m]) +\n  * bar\n)", 3, 3, NO_OPERAND.replace("end of query", '"*"', 1), "  * bar\n  ^"),
    ('"é€🦀" + b"c"', 1, 10, f'unexpected string "c", expected "{{", "[", "(", {NO_OPERATOR}', '"é€🦀" + b"c"\n         ^~~'),
    ("1 + é", 1, 5, "unexpected character: 'é'", "1 + é\n    ^"),
    ('foo{bar="\x1b\u202e"} b', 1, 15, f'unexpected identifier "b", expected "[", {NO_OPERATOR}', 'foo{bar="\\x1b\\u{202e}"} b\n' + " " * 24 + "^"),
    ("rate(foo)", 1, 6, "expected type matrix in call to function 'rate', got vector", "rate(foo)\n     ^~~"),
)


class Texts(unittest.TestCase):
    def test_names(self):
        self.assertEqual({*dir(promql)}, {*promql.__all__, "__version__"})
        self.assertIs(promql.tree, sys.modules["promql.tree"])
        with self.assertRaises(AttributeError):
            promql.nothing

    def test_canonical(self):
        self.assertEqual(promql.canonical("sum(foo{b='1',a=\"2\"}) > .50"), 'sum(foo{a="2",b="1"}) > 0.5')
        self.assertEqual(promql.canonical("{a='é'}or b"), '{a="é"} or b')

    def test_format(self):
        self.assertEqual(promql.pretty("sum(a)/sum(b)", width=8), "  sum(a)\n/\n  sum(b)")
        self.assertEqual(promql.pretty("1+2", level=1), "  1 + 2")
        self.assertEqual(promql.format("up # c"), "up # c")
        self.assertEqual(promql.format("# a\nsum(up)by(job)#b"), "# a\nsum by (job) (up) #b")
        self.assertEqual(promql.pretty("1+2", width=2**64 - 1, level=512), "  " * 512 + "1 + 2")
        for wrong in ({"level": -1}, {"level": 513}, {"width": -1}, {"width": 2**64}):
            with self.assertRaises(ValueError):
                promql.pretty("1", **wrong)

    def test_parse(self):
        selector = {"matchers": [], "name": "foo", "offset": -300000, "startOrEnd": None, "timestamp": None}
        self.assertEqual(promql.parse("foo offset -5m"), {**selector, "type": "vectorSelector"})
        with self.assertRaises(promql.NumberTooWideError) as raised:
            promql.parse("a[18446744073709551616ms]")
        self.assertEqual(str(raised.exception), "number too wide for JSON")

    def test_parse_with_places(self):
        self.assertEqual(promql.parse(" 1", places=True), {"end": 2, "start": 1, "type": "numberLiteral", "val": "1"})
        query = "- foo{a='é', b='🦀'} + sum(bar)"
        tree = promql.parse(query, places=True)
        selector, total = tree["lhs"]["expr"], tree["rhs"]
        self.assertEqual([query[it["start"] : it["end"]] for it in selector["matchers"]], ["a='é'", "b='🦀'"])
        for node, text in ((tree, query), (selector, "foo{a='é', b='🦀'}"), (total, "sum(bar)"), (total["expr"], "bar")):
            self.assertEqual(query[node["start"] : node["end"]], text)
        with self.assertRaises(promql.NumberTooWideError):
            promql.parse("a[18446744073709551616ms]", places=True)
        with self.assertRaises(promql.TreeError):
            promql.print_tree(tree)

    def test_limits(self):
        query = 'a{b=~"c{3000}"}'
        with self.assertRaises(promql.TooLargeError) as raised:
            promql.check(query)
        self.assertEqual(str(raised.exception), "1:6: patterns are too large: 39013, at most 16000")
        self.assertEqual(query[raised.exception.start : raised.exception.end], '"c{3000}"')
        with self.assertRaises(promql.TooLargeError):
            promql.canonical("a" * 32_769)
        self.assertEqual(promql.canonical("a" * 32_768), "a" * 32_768)
        promql.set_limits(max_len=15, max_patterns=39_013)
        try:
            promql.check(query)
            with self.assertRaises(promql.TooLargeError):
                promql.check(query + " ")
        finally:
            promql.set_limits()

    def test_format_query(self):
        query = "sum(rate(foo[5m]))by(job) # per job"
        self.assertEqual(promql.format_query(query), "sum by (job) (rate(foo[5m])) # per job")
        self.assertEqual(promql.format_query("a  or\tb", keep_spelling=True), "a or b")
        for width in (0, 10, 40):
            laid = promql.format_query(query, width=width, indent=4)
            self.assertEqual(promql.canonical(laid), promql.canonical(query))
            self.assertIn("# per job", laid)
            self.assertEqual(promql.format_query(laid, width=width, indent=4), laid)
        with self.assertRaises(promql.QueryError) as raised:
            promql.format_query("1 +")
        self.assertEqual(str(raised.exception), "1:4: " + NO_OPERAND)

    def test_targets(self):
        query = r'a{b="\xc3\xa9"}'
        line = 'a{b="Ã©"}'
        said = "Prometheus reads this otherwise: the escape is a byte there, and a character here"

        def answers():
            return [
                lambda: promql.check(query),
                lambda: promql.enforce(query, "c='1'"),
                lambda: promql.rename_metric(query, "a", "a"),
                lambda: promql.rename_label(query, "c", "d"),
                lambda: promql.format_query(query),
            ]

        for call in answers():
            with self.assertRaises(promql.ReadOtherwiseError) as raised:
                call()
            self.assertEqual((raised.exception.start, raised.exception.end, raised.exception.message), (5, 9, said))
        with self.assertRaises(promql.MatcherError) as of_matcher:
            promql.enforce("a", r'b="\xc3"')
        self.assertRegex(str(of_matcher.exception), "^Prometheus reads the matcher otherwise: the escape at byte 3 ")
        self.assertEqual(promql.canonical(query), line)
        self.assertEqual(promql.pretty(query), line)
        with self.assertRaises(ValueError):
            promql.set_target("prometheus-4")
        promql.set_target("rules")
        try:
            self.assertEqual([call() for call in answers()], [None, 'a{b="Ã©",c="1"}', line, line, line])
        finally:
            promql.set_target("prometheus-3")

    def test_differences(self):
        # (a query, the part that is read otherwise, its line, and whether a layout has what is written)
        rows = [
            ("1 / -0.0", "-", "1 / 0", True),
            ("foo @ 1.0005", "@", "foo @ 1.001", True),
            (r'foo{a="\ufffd"}', r'"\ufffd"', 'foo{a="\ufffd"}', False),
            ("timestamp((+foo))", "timestamp", "timestamp((foo))", True),
            ('absent(foo{a="c",a!~"b"})', "absent", 'absent(foo{a!~"b",a="c"})', True),
        ]
        for query, part, line, is_kept in rows:
            self.assertEqual(promql.canonical(query), line)
            for call in (promql.check, lambda text: promql.enforce(text, "z='1'"), lambda text: promql.rename_label(text, "c", "d")):
                with self.assertRaises(promql.ReadOtherwiseError) as raised:
                    call(query)
                self.assertEqual(query[raised.exception.start : raised.exception.end], part)
            self.assertEqual(promql.format_query(query, keep_spelling=True), query)
            if is_kept:
                self.assertEqual(promql.canonical(promql.format_query(query)), line)
            else:
                with self.assertRaises(promql.ReadOtherwiseError):
                    promql.format_query(query)

    def test_refusals(self):
        # (a target, a query, and the part that it rejects)
        rows = [
            ("prometheus-3", 'a{b="c" or d="e"}', "or"),
            ("prometheus-3", "rate(+a[5m])", "+"),
            ("prometheus-3", "a[300]", ""),
            ("prometheus-2.42", "a[300]", "300"),
            ("prometheus-2.42", '{"a b"="é"}', '"a b"'),
            ("prometheus-2.42", "a + limitk(1, b)", "limitk"),
            ("rules", 'a{b="c" or d="e"} + limitk(1, b)', ""),
        ]
        try:
            for target, query, part in rows:
                promql.set_target(target)
                promql.canonical(query)
                if not part:
                    promql.check(query)
                    continue
                with self.assertRaises(promql.RefusedError) as raised:
                    promql.check(query)
                error = raised.exception
                self.assertEqual((query[error.start : error.end], error.number), (part, 24))
                self.assertRegex(error.message, r"^Prometheus (3|2\.42) rejects this: ")
        finally:
            promql.set_target("prometheus-3")

    def test_long_new_names(self):
        self.assertEqual(promql.rename_label("a{b='1'}", "b", "x" * 1024), 'a{' + "x" * 1024 + '="1"}')
        for rename in (promql.rename_label, promql.rename_metric):
            with self.assertRaises(promql.LargeEnforcedError) as raised:
                rename("a{b='1'} + " * 400 + "a", "a", "x" * 1025)
            self.assertEqual(str(raised.exception), "the new name is not within the limits: query is too long: 1025 bytes, at most 1024")

    def test_long_output(self):
        promql.set_limits(max_output=5)
        try:
            self.assertEqual(promql.canonical("a+b"), "a + b")
            for call in (promql.canonical, promql.pretty, promql.parse):
                with self.assertRaises(promql.LongOutputError) as raised:
                    call("a + bc")
                self.assertRegex(str(raised.exception), r"^output is too long: \d+ bytes, at most 5$")
            promql.check("a + bc")
        finally:
            promql.set_limits()

    def test_enforce(self):
        self.assertEqual(promql.enforce("sum(rate(foo[5m])) / bar", "a='1'"), 'sum(rate(foo{a="1"}[5m])) / bar{a="1"}')
        self.assertEqual(promql.enforce("{a='é' or b='2'}", "c!~'x'"), '{a="é", c!~"x" or b="2", c!~"x"}')
        for matcher in ("", "a", 'a="1"} or {b="2"', '__name__="up"'):
            with self.assertRaises(promql.MatcherError):
                promql.enforce("foo", matcher)
        self.assertEqual(promql.enforce("info(b, {c='2'})", "a='1'"), 'info(b{a="1"}, {a="1",c="2"})')
        with self.assertRaises(promql.BareInfoError):
            promql.enforce("sum(c) + topk(scalar(info(b)), d)", "a='1'")
        with self.assertRaises(promql.QueryError) as raised:
            promql.enforce("1 +", "a='1'")
        self.assertEqual((raised.exception.line, raised.exception.column), (1, 4))

    def test_large_enforced(self):
        for query, matcher, message in (
            ("foo", "a=~'b{1230}'", "the matcher is not within the limits: patterns are too large: 16003, at most 16000"),
            ("c + d", "a=~'b{1229}'", "the enforced query is not within the limits: patterns are too large: 31980, at most 16000"),
        ):
            with self.assertRaises(promql.LargeEnforcedError) as raised:
                promql.enforce(query, matcher)
            self.assertEqual(str(raised.exception), message)
        self.assertEqual(promql.enforce("foo", "a=~'b{1229}'"), 'foo{a=~"b{1229}"}')
        promql.set_limits(max_patterns=31_980)
        try:
            self.assertEqual(promql.enforce("c + d", "a=~'b{1229}'"), 'c{a=~"b{1229}"} + d{a=~"b{1229}"}')
        finally:
            promql.set_limits()

    def test_rename(self):
        query = "sum by (job) (rate(a{job='é'}[5m])) / {__name__='a'}"
        self.assertEqual(promql.rename_metric(query, "a", "c"), 'sum by (job) (rate(c{job="é"}[5m])) / {__name__="c"}')
        self.assertEqual(promql.rename_label(query, "job", "d"), 'sum by (d) (rate(a{d="é"}[5m])) / {__name__="a"}')
        for rename, old, new, message in (
            (promql.rename_metric, "a", "b.c", "the new name is no name of a metric"),
            (promql.rename_label, "job", "__name__", "the label of the metric name cannot be renamed"),
        ):
            with self.assertRaises(promql.RenameError) as raised:
                rename(query, old, new)
            self.assertEqual(str(raised.exception), message)
        with self.assertRaises(promql.RenameError):
            promql.rename_label("a{b='1',c='2'}", "b", "c")
        with self.assertRaises(promql.QueryError):
            promql.rename_label("a{b='1',", "b", "c")
        with self.assertRaises(UnicodeEncodeError):
            promql.rename_metric("a", "a", "\ud800")
        with self.assertRaises(TypeError):
            promql.rename_metric("a", b"a", "b")
        promql.set_limits(max_len=4)
        try:
            with self.assertRaises(promql.LargeEnforcedError):
                promql.rename_metric("a+b", "a", "c")
        finally:
            promql.set_limits()

    def test_collect(self):
        self.assertEqual(
            promql.collect("sum by (b) (rate(foo{a='é'}[5m] offset -1h)) / {__name__='bar'} @ end()"),
            {
                "functions": ["rate"],
                "labels": ["a", "b"],
                "metrics": ["bar", "foo"],
                "selectors": [
                    {"name": "foo", "matchers": 'a="é"', "range": "5m", "offset": "-1h", "at": None},
                    {"name": None, "matchers": '__name__="bar"', "range": None, "offset": None, "at": "@ end()"},
                ],
            },
        )
        with self.assertRaises(promql.QueryError):
            promql.collect("1 +")

    @unittest.skipUnless(hasattr(_library._library, "promql_print_tree"), "the library has no promql_print_tree")
    def test_parts(self):
        """Each part of each node, typed from what docs/reference/walks.md says of them."""
        for query, wanted in (
            ("1", [[]]),
            ("foo{a='b', 'c d'!~\"e\"}[5m] offset -1m", [["name foo", "matcher a='b'", "matcher 'c d'!~\"e\"", "selector foo{a='b', 'c d'!~\"e\"}", "range [5m]", "offset offset -1m"]]),
            ("{'é', a='🦀'} @ end()", [["matcher 'é'", "matcher a='🦀'", "at @ end()"]]),
            ("topk by (a, b) (5, c)", [["operator topk", "label a", "label b"], [], ["name c"]]),
            ("a / on (b) group_left (c) -d", [["operator /", "label b", "groupLabel c"], ["name a"], ["operator -"], ["name d"]]),
            ("rate(a[1m] smoothed)", [["name rate"], ["name a", "selector a", "range [1m]", "mode smoothed"]]),
            ("(a)[5m:1m] # é", [["range [5m:1m]"], [], ["name a"]]),
        ):
            found = promql.parts(query)
            self.assertEqual([[f"{part.kind} {query[part.start : part.end]}" for part in node] for node in found], wanted)
            self.assertEqual(len(found), len(promql.places(query)))
        self.assertEqual(promql.parts("-a"), [[promql.Part("operator", 0, 1)], [promql.Part("name", 1, 2)]])

    def test_parts_of_rejected(self):
        for query, error in (("a +", promql.QueryError), ("", promql.QueryError), ("a" * 32_769, promql.TooLargeError), ("\ud800", UnicodeEncodeError)):
            with self.assertRaises(error):
                promql.parts(query)

    def test_all_differences(self):
        """What the target reads otherwise, and then what it rejects, with places in characters."""
        self.assertEqual(promql.differences("foo"), [])
        query = "exp(Inf) + foo{a='é', b='\\xc3\\xa9'} + -0"
        found = promql.differences(query)
        self.assertEqual([(it.is_rejected, query[it.start : it.end]) for it in found], [(False, "\\xc3"), (False, "-"), (True, "exp")])
        self.assertEqual(found[0].message, "Prometheus reads this otherwise: the escape is a byte there, and a character here")
        for rejected, error in (("1 +", promql.QueryError), ("a" * 32_769, promql.TooLargeError), ("\ud800", UnicodeEncodeError)):
            with self.assertRaises(error):
                promql.differences(rejected)
        promql.set_target("rules")
        try:
            self.assertEqual(promql.differences("exp(Inf) + -0"), [])
            promql.set_target("prometheus-2.42")
            self.assertEqual([it.message for it in promql.differences("step()")], ["Prometheus 2.42 rejects this: the function is of a later version"])
        finally:
            promql.set_target("prometheus-3")

    def test_windows(self):
        """When selectors read, in Prometheus 3 and 2."""
        query = "info(rate(a{b='é'}[5m] @ start() offset -1m)) + max_over_time(b[1m:1h])"
        wanted = [
            ('a{b="é"} @ start() offset -1m', 760_000, 1_060_000, 10, 43),
            ("target_info", 700_000, 1_400_000, None, None),
            ("b", None, None, 62, 63),
        ]
        self.assertEqual(promql.windows(query, 1_000_000, 1_500_000, 200_000, left_open=False), wanted)
        found = promql.windows("a + max_over_time(b[20s:])", 1_000_000, 1_500_000, 200_000, lookback=60_000, default_step=7000)
        self.assertEqual(found, [("a", 940_001, 1_400_000, 0, 1), ("b", 927_001, 1_400_000, 18, 19)])
        first = -(2**63)
        self.assertEqual(promql.windows("a", first + 300_000, first + 300_000, left_open=False), [("a", first, first + 300_000, 0, 1)])
        self.assertEqual(promql.windows("info((a))", 0, 0)[1:], [("target_info", -299_999, 0, None, None)])
        self.assertEqual(promql.windows("1", 0, 0), [])
        with self.assertRaises(promql.TimeOverflowError) as raised:
            promql.windows("b + a @ -9223372036854775.808", 0, 0)
        message = "a time of `a @ -9223372036854775.808` is below -2^63 or above 2^63 - 1 milliseconds"
        self.assertEqual((str(raised.exception), raised.exception.number), (message, 25))
        for rejected, error in (("1 +", promql.QueryError), ("a" * 32_769, promql.TooLargeError), ("\ud800", UnicodeEncodeError)):
            for call in (lambda it: promql.windows(it, 0, 0), lambda it: promql.last_read(it, 0, 0, 0), promql.is_constant):
                with self.assertRaises(error):
                    call(rejected)
        for times in ((2**63, 0), (0, -(2**63) - 1), (0, 0, -1), (0, 0, 2**64)):
            with self.assertRaises(ValueError):
                promql.windows("a", *times)
        with self.assertRaises(TypeError):
            promql.windows("a", 0.5, 1)

    def test_reaches(self):
        query = "rate(a{b='é'}[1m] offset -5m) + info(b @ end() offset 1m)"
        wanted = [('a{b="é"} offset -5m', 240_000, 300_000, False), ("b @ end() offset 1m", 1_140_000, 1_440_000, True), ("target_info", -300_000, 0, False)]
        self.assertEqual(promql.reaches(query, 1_000_000, 1_500_000, left_open=False), wanted)
        self.assertEqual(promql.reaches("max_over_time(a[5m:1h])", lookback=60_000), [("a", -359_998, 0, False)])
        self.assertEqual(promql.reaches("1"), [])
        with self.assertRaises(promql.TimeOverflowError) as raised:
            promql.reaches("a + b @ -9223372036854775.808")
        message = "a time of `b @ -9223372036854775.808` is below -2^63 or above 2^63 - 1 milliseconds"
        self.assertEqual((str(raised.exception), raised.exception.number), (message, 25))
        for wrong, error in (("1 +", promql.QueryError), ("a" * 32_769, promql.TooLargeError), ("\ud800", UnicodeEncodeError), (1, TypeError)):
            for call in (promql.reaches, lambda it: promql.may_read(it, {})):
                with self.assertRaises(error):
                    call(wrong)
        with self.assertRaises(ValueError):
            promql.reaches("a", lookback=-1)

    def test_may_read(self):
        up = {"__name__": "up", "job": "é\"\n\0", "team": ""}
        rows = (
            ("up{job='é\"\\n\\x00'}", up, True),
            ("up{job='web'}", up, False),
            ("max_over_time(up{team='',other=~'x?'}[5m:])", up, True),
            ("down + on () {__name__=~'d.*'}", up, False),
            ("info(down)", MappingProxyType({"__name__": "target_info"}), True),
            ("{a!='b',c='d'}", {"c": "d"}, True),
            ("up", {}, False),
        )
        for query, labels, wanted in rows:
            self.assertIs(promql.may_read(query, labels), wanted, query)
        for labels in ({"a": 1}, {1: "a"}, {"a": None}):
            with self.assertRaises(TypeError):
                promql.may_read("up", labels)
        for labels in ({"a": "\ud800"}, {"\ud800": "a"}):
            with self.assertRaises(UnicodeEncodeError):
                promql.may_read("up", labels)

    def test_last_read(self):
        for query, last in (("a", 60_000), ("a offset -5m + b offset 5m", 360_000), ("a @ end()", 3_600_000), ("1", None)):
            self.assertEqual(promql.last_read(query, 60_000, 0, 3_600_000), last, query)

    def test_pinned(self):
        self.assertEqual(promql.pinned("sum(a@end()) by(b) - c @ start()", -250, 3_600_000), "sum by (b) (a @ 3600.000) - c @ -0.250")
        with self.assertRaises(promql.GridFunctionError) as raised:
            promql.pinned("a > end()", 0, 1)
        self.assertEqual(raised.exception.number, 26)
        with self.assertRaises(ValueError):
            promql.pinned("a", 0, 2**63)
        self.assertEqual([promql.is_constant(query) for query in ("a @ end() + 1", "a + 1")], [True, False])

    def tokens_of(self, text):
        """The tokens with their texts, between which there is white space alone."""
        found, at = [], 0
        for token in promql.tokens(text):
            self.assertEqual(text[at : token.start].strip(" \t\n\f\r"), "", text)
            found.append((token.kind, text[token.start : token.end]))
            at = token.end
        self.assertEqual(text[at:].strip(" \t\n\f\r"), "", text)
        return found

    def test_tokens(self):
        self.assertEqual(promql.tokens("up 5x"), [promql.Token("name", 0, 2), promql.Token("error", 3, 5)])
        self.assertEqual(promql.tokens(" \n"), [])
        self.assertEqual(promql.tokens(""), [])
        for text, kind in (
            ("1 0x1F .5 1e-3 Inf nan", "number"),
            ("5m 1h30m", "duration"),
            ("'é' \"\\n\" `\\é`", "string"),
            ("foo job:up:sum :a rate step fill", "name"),
            ("sum TOPK count_values limit_ratio", "aggregator"),
            ("by WITHOUT on ignoring group_left group_right bool offset smoothed anchored start end", "keyword"),
            ("+ - * / % ^ == != <= < >= > and or Unless atan2 @ =", "operator"),
        ):
            self.assertEqual(self.tokens_of(text), [(kind, word) for word in text.split()])
        self.assertEqual([kind for kind, _ in self.tokens_of("fill (1) fill_left\n(")], ["keyword", "punctuation", "number", "punctuation", "keyword", "punctuation"])

    def test_tokens_in_brackets(self):
        braces = self.tokens_of("{sum=~'é', or!~\"🦀\" or by='c'}[5m:1]")
        names = [("name", "sum"), ("name", "or"), ("operator", "or"), ("name", "by")]
        self.assertEqual([it for it in braces if it[1].isalpha()], names)
        self.assertEqual([it[1] for it in braces if it[0] == "operator"], ["=~", "!~", "or", "="])
        self.assertEqual(braces[-5:], [("punctuation", "["), ("duration", "5m"), ("punctuation", ":"), ("number", "1"), ("punctuation", "]")])

    def test_comments(self):
        self.assertEqual(self.tokens_of("a # é\r == 0#"), [("name", "a"), ("comment", "# é"), ("operator", "=="), ("number", "0"), ("comment", "#")])
        self.assertEqual(self.tokens_of("{# b}\n}"), [("punctuation", "{"), ("comment", "# b}"), ("punctuation", "}")])
        # (between brackets there are none)
        self.assertEqual(self.tokens_of("[#]"), [("punctuation", "["), ("error", "#"), ("punctuation", "]")])

    def test_tokens_of_rejected(self):
        """After an error the tokens go on, outside, between braces or between brackets."""
        for text, errors in (
            ("a é$ b", ["é", "$"]),
            ("5xyz + 1", ["5xyz"]),
            ("a{5b='c', é} d", ["5b", "é"]),
            ("a[5m foo] b", ["foo"]),
            ('a{b="c\\q"} d', ['"c\\q"']),
            ('a{b="c} d', ['"c} d']),
            ("a{b='c'} `d", ["`d"]),
            ("a } b", ["}"]),
            ("\0", ["\0"]),
        ):
            found = self.tokens_of(text)
            self.assertEqual([it[1] for it in found if it[0] == "error"], errors, text)
            if errors[-1][-1] != text[-1]:
                self.assertNotEqual(found[-1][0], "error")

    def test_tokens_of_no_text(self):
        with self.assertRaises(promql.TooLargeError):
            promql.tokens("a" * 32_769)
        self.assertEqual(promql.tokens("a" * 32_768), [("name", 0, 32_768)])
        # (patterns that are too large have their tokens)
        self.assertEqual(len(promql.tokens('a{b=~"c{3000}"}')), 6)
        with self.assertRaises(UnicodeEncodeError):
            promql.tokens("\ud800")
        with self.assertRaises(TypeError):
            promql.tokens(b"up")

    def test_print_tree(self):
        tree = promql.parse("foo + on (b) bar{a='é'}")
        self.assertEqual(promql.print_tree(tree), 'foo + on (b) bar{a="é"}')
        product = {**promql.parse("1 * 2"), "lhs": promql.parse("1 + x")}
        self.assertEqual(promql.print_tree(product, parentheses=True), "(1 + x) * 2")
        self.assertEqual(promql.print_tree(product, parentheses=True, width=7, level=1), "    (1 + x)\n  *\n    2")
        with self.assertRaisesRegex(promql.UnfaithfulError, "^the left side of an operator needs parentheses$"):
            promql.print_tree(product)
        with self.assertRaisesRegex(promql.TreeError, r"^\$\.lhs\.name: a text$"):
            promql.print_tree({**tree, "lhs": {**tree["lhs"], "name": 1}})
        promql.set_limits(max_len=20)
        try:
            with self.assertRaises(promql.TooLargeTreeError):
                promql.print_tree(tree)
        finally:
            promql.set_limits()

    def test_large_trees(self):
        number = {"type": "numberLiteral", "val": "1"}
        for most, said in ((33, "tree is too long: 34 bytes, at most 33"), (34, None)):
            promql.set_limits(max_tree=most)
            try:
                if said is None:
                    self.assertEqual(promql.print_tree(number), "1")
                else:
                    with self.assertRaisesRegex(promql.TooLargeTreeError, f"^{said}$"):
                        promql.print_tree(number)
            finally:
                promql.set_limits()
        for form, size in (
            ({"type": "=~", "value": "c{3000}"}, 39_013),
            ({"x": [[{"type": "!~", "value": "c{1000}"}], {"type": "=~", "value": "c{1000}"}]}, 26_026),
        ):
            with self.assertRaisesRegex(promql.TooLargeTreeError, f"^patterns are too large: {size}, at most 16000$"):
                promql.print_tree(form)

    def test_long_lists(self):
        """Lists of so many parts have their places, and are read back."""
        for size in (21, 1_000):
            parts = [f"l{number}" for number in range(1_000, 1_000 + size)]
            for query, found in (
                (f"sum by ({', '.join(parts)}) (foo)", lambda tree: tree["grouping"]),
                (f"{{{','.join(part + '=~`x`' for part in parts)}}}", lambda tree: tree["matchers"]),
                (f"{{a='b' or {' or '.join(part + '=`x`' for part in parts)}}}", lambda tree: [it[0] for it in tree["or_matchers"][1:]]),
                (f"label_join(foo, 'a', 'b', {', '.join(map(repr, parts))})", lambda tree: tree["args"][3:]),
            ):
                made = [it if isinstance(it, str) else query[it["start"] : it["end"]] for it in found(promql.parse(query, places=True))]
                self.assertEqual([it.strip("'").partition("=")[0] for it in made], parts, query[:20])
                self.assertEqual(promql.print_tree(promql.parse(query)), promql.canonical(query))

    def test_long_texts(self):
        query = "+".join(["x"] * 500)
        self.assertEqual(promql.canonical(query), " + ".join(["x"] * 500))
        self.assertGreater(len(promql.pretty(query, width=1)), _library.FIRST_SIZE)
        name = "x" * 1_000_000
        promql.set_limits(max_len=len(name))
        try:
            self.assertEqual(promql.canonical(name), name)
        finally:
            promql.set_limits()

    def test_version(self):
        self.assertEqual(promql.version(), promql.__version__)
        for path, line in VERSIONS.items():
            text = (HERE.parents[1] / path).read_text(encoding="utf-8")
            self.assertIn(line.format(promql.__version__), text, path)


class Errors(unittest.TestCase):
    def test_places(self):
        for query, line, column, message, snippet in REJECTED:
            for call in promql.check, promql.canonical, promql.pretty, promql.parse:
                with self.assertRaises(promql.QueryError) as raised:
                    call(query)
                error = raised.exception
                self.assertEqual((error.line, error.column, error.message), (line, column, message))
                self.assertEqual(str(error), f"{line}:{column}: {message}")
                self.assertEqual(error.snippet(), snippet)
                before = query[: error.start]
                self.assertEqual((before.count("\n") + 1, len(before.split("\n")[-1]) + 1), (line, column))

    def test_parts(self):
        for query, part in (("'🦀' or rate(foo)", "foo"), ("1 +", ""), ("a{b=~'('}", "'('")):
            with self.assertRaises(promql.QueryError) as raised:
                promql.check(query)
            self.assertEqual(query[raised.exception.start : raised.exception.end], part)

    def error_of(self, query):
        with self.assertRaises(promql.QueryError) as raised:
            promql.check(query)
        return raised.exception

    def test_expected(self):
        for query, expected, found, message in (
            ("foo{a=b}", ("string",), 'identifier "b"', 'unexpected identifier "b", expected string'),
            ("foo{a==\"b\"}", ("string",), '"="', 'unexpected "=", expected string; a matcher has one "="'),
            ("a + on b", ('"("',), 'identifier "b"', 'unexpected identifier "b", expected "("'),
            ("sum by (job 1) (foo)", ('","', '")"'), 'number "1"', 'unexpected number "1", expected "," or ")"'),
        ):
            error = self.error_of(query)
            self.assertEqual((error.expected, error.found, error.message), (expected, found, message))
            self.assertEqual(error.reason, "invalid promql query")

    def test_expected_after_large_patterns(self):
        """No pattern is compiled to find what was expected."""
        error = self.error_of('{a=~"\\\\w{300}",' + "b=~`(?i)\\PL`," * 26 + "c}")
        self.assertEqual((error.expected, error.found), (('"="', '"=~"', '"!="', '"!~"'), '"}"'))
        self.assertEqual(error.message, 'unexpected "}", expected "=", "=~", "!=" or "!~"')

    def test_levels(self):
        error = self.error_of(" + ".join(["a"] * 513))
        self.assertEqual((error.expected, error.found, error.reason), ((), None, "expression nested too deeply"))
        self.assertEqual(error.message, "more than 512 levels: put parts of a long chain in parentheses, or split the query")

    def test_what_prometheus_takes(self):
        for query, message in (
            ("a[5m# b\n]", "unexpected character inside brackets: '#'; Prometheus takes a comment there: write it after the bracket"),
            ("a @ start()[5m]", "no @ modifiers allowed before range; Prometheus takes it: write the range first"),
            ("1" * 39, "more than 38 significant digits; Prometheus rounds it to a floating-point number"),
        ):
            with self.assertRaises(promql.QueryError) as raised:
                promql.check(query)
            self.assertEqual((raised.exception.message, raised.exception.expected), (message, ()))
            self.assertTrue(message.startswith(raised.exception.reason))

    def test_nothing_expected(self):
        """At an error that is no syntax error."""
        for query, message in (
            ("nosuch(1)", "unknown function with name 'nosuch'"),
            ("", "no expression found in input"),
            ('a{b=~"c{3000}"}', "patterns are too large: 39013, at most 16000"),
        ):
            error = self.error_of(query)
            self.assertEqual((error.expected, error.found, error.message, error.reason), ((), None, message, message))

    def test_other_limits(self):
        """What was expected is not told where the query is not within the limits any more."""
        error = self.error_of("foo{a=b}")
        promql.set_limits(max_len=3)
        try:
            self.assertEqual((error.message, error.expected), ("invalid promql query", ()))
        finally:
            promql.set_limits()

    def test_pickle(self):
        error = self.error_of("1 +")
        fresh = pickle.dumps(error)
        self.assertEqual(error.found, "end of query")
        for before in fresh, pickle.dumps(error):
            again = pickle.loads(before)
            self.assertEqual((str(again), again.query, again.start), (str(error), "1 +", 3))
            self.assertEqual((again.expected, again.found), (error.expected, "end of query"))

    def test_accepted(self):
        promql.set_target("rules")
        try:
            self.assertIsNone(promql.check("a[18446744073709551616ms]"))
        finally:
            promql.set_target("prometheus-3")

    def test_surrogates(self):
        with self.assertRaises(UnicodeEncodeError):
            promql.canonical("\ud800")

    def test_statuses(self):
        self.assertEqual(_library.print_query(b"\xff", Mode.LINE)[1].status, Status.NOT_UTF8)
        self.assertEqual(_library.call("promql_print", 0, b"1", 1, 4, 0, 0)[1].status, Status.UNKNOWN_MODE)
        self.assertEqual(_library.call("promql_check", 0, None, 1)[1].status, Status.BAD_POINTER)
        self.assertEqual(_library.call("promql_check", 0, None, 0)[1].status, Status.REJECTED)


def broken(generator):
    """A text of random bytes, or a query that was cut short or changed at some bytes."""
    if generator.random() < 0.25:
        return bytes(generator.randrange(256) for _ in range(generator.randrange(64)))
    text = bytearray(generator.choice(QUERIES).encode())
    if generator.random() < 0.3:
        del text[generator.randrange(len(text)) :]
    for _ in range(generator.randrange(4)):
        if text:
            at = generator.randrange(len(text))
            text[at : at + generator.randrange(2)] = generator.choice((b"\xff", b"(", b")", b'"', b"{", b"\n", b"@", b"5", b" "))
    return bytes(text)


class Broken(unittest.TestCase):
    def test_broken_texts(self):
        generator = random.Random(7)
        for _ in range(BROKEN):
            text = broken(generator)
            checked = _library.call("promql_check", 0, text, len(text))
            line = _library.call("promql_canonical", 2 * len(text), text, len(text))
            layout, tree = _library.print_query(text, Mode.PRETTY, 1, 20), _library.print_query(text, Mode.JSON)
            status = line[1].status
            self.assertIn(status, (Status.OK, Status.NOT_UTF8, Status.REJECTED), text)
            self.assertEqual((checked[1].status, layout[1].status), (status, status), text)
            if status == Status.OK:
                self.assertEqual(_library.print_query(line[0], Mode.LINE)[0], line[0], text)
                self.assertEqual(layout[0].translate(None, b" \n"), line[0].translate(None, b" \n"), text)
                self.assertIn(tree[1].status, (Status.OK, Status.NUMBER_TOO_WIDE), text)
            else:
                self.assertEqual((checked[0], layout[0], tree[0]), (line[0],) * 3, text)
                self.assertLessEqual(line[1].start, line[1].end, text)
                self.assertLessEqual(line[1].end, len(text), text)


# Queries that need much of a stack: parentheses, and patterns of as many nested groups as are read, and of more.
DEEP = (
    "(" * 510 + "1" + ")" * 510,
    "(" * 510,
    *("{a=~'" + opens * count + "b" + closes * count + "'}" for opens, closes in (("(", ")"), ("(?:", ")"), ("[", "]")) for count in (248, 250)),
    "abs(" * 511 + "{a=~'" + "(" * 248 + "b" + ")" * 248 + "'}" + ")" * 511,
)


def outcome(call, query):
    """What a call returns, or its error."""
    try:
        return call(query)
    except promql.Error as error:
        return type(error), str(error)


class Stacks(unittest.TestCase):
    CALLS = (promql.canonical, promql.pretty, promql.check, promql.collect, lambda query: promql.enforce(query, "a='1'"))

    def outcomes(self):
        return [outcome(call, query) for query in DEEP for call in self.CALLS]

    def test_small_stacks(self):
        """A thread with a small stack raises its error, and one with enough of it gives what any other does."""
        wanted = self.outcomes()
        small = [(promql.SmallStackError, "the thread has less than 1.25 MiB of stack left")] * len(wanted)
        before = threading.stack_size()
        self.addCleanup(threading.stack_size, before)
        for size in (256, 512, 1024, 1536, 2048):
            threading.stack_size(size * 1024)
            found = []
            thread = threading.Thread(target=lambda: found.extend(self.outcomes()))
            thread.start()
            thread.join()
            # (a thread may have more than it asked for: the stack of one that ended)
            allowed = [small] if size <= 256 else [small, wanted] if size < 1280 else [wanted]
            self.assertIn(found, allowed, size)


class Threads(unittest.TestCase):
    def test_threads(self):
        queries = [f"sum(a{n}) + {n}" for n in range(400)]
        wanted = [promql.canonical(query) for query in queries]
        found = []

        def work():
            found.append([promql.canonical(query) for query in queries])

        threads = [threading.Thread(target=work) for _ in range(8)]
        for thread in threads:
            thread.start()
        for thread in threads:
            thread.join()
        self.assertEqual(found, [wanted] * 8)


if __name__ == "__main__":
    unittest.main()
