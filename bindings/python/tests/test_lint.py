"""Tests of the linter's rules: those of docs/guide/lint.md by its examples, and more texts for each."""

import re
import unittest
from pathlib import Path

import promql
from promql.lint import RULES, RuleContext, Selection, Severity, fix, known_codes, lint, look_at_tree
from promql.queries import edited as edited_query
from promql.lint.records import RecordedRule, Records
from promql.lint.subject import Subject
from promql.lint.table import LIVE
from promql.token_texts import comments_of

ROOT = Path(__file__).resolve().parents[3]
PAGE = ROOT / "docs/guide/lint.md"
ENTRY = re.compile(r"^### (P\d{3}) ([\w-]+)\n(.*?)(?=^##)", re.M | re.S)
EXAMPLE = re.compile(r"^- (Bad|Good): `([^`]+)`", re.M)
# What some rules have to know of the rule that has the query.
ALERT = RuleContext(alert="A", template_labels=frozenset(("zone",)))
RECORDS = Records(
    (
        RecordedRule("job:errors:sum", "sum by (job) (errors)"),
        RecordedRule("zone:errors:max", "max by (zone) (job:errors:sum)"),
        RecordedRule("given:errors:sum", "sum(errors)", frozenset((("team", "shop"), ("job", "")))),
        RecordedRule("two:errors:sum", "sum by (job) (errors)"),
        RecordedRule("two:errors:sum", "sum by (zone) (errors)"),
        RecordedRule("self:errors:sum", "sum by (job) (self:errors:sum offset 1m)"),
        RecordedRule("group:errors:sum", "sum(errors)", None),
        RecordedRule("broken:errors:sum", "sum("),
    )
)
CONTEXTS = {
    "P206": ALERT,
    "P207": RuleContext(alert="A", interval=300_000),
    "P501": RuleContext(alert="A"),
    "P502": RuleContext(alert="A"),
    "P503": ALERT,
    "P406": RuleContext(alert="A", records=RECORDS),
    "P504": RuleContext(alert="A", value_labels=frozenset(("load",))),
    "P505": RuleContext(alert="A", template_queries=("sum(up", "up")),
    "P701": RuleContext(record="A", same_query="max(up)"),
    "P702": RuleContext(record="A", circle=frozenset(("job:load:max", "A"))),
    "P703": RuleContext(alert="A", records=RECORDS),
}
# For which the page has what else to say of these in the rule, and not in the query.
BY_CONTEXT = ("P504", "P505")
# Two texts of which each character of the one would be held against each of the other.
LARGE = 'up{a="' + "b" * 10_000 + '",a=~"' + "b?" * 100 + '"}'
# For each code queries with what is marked in them, and the query with the fix where there is one.
FOUND = (
    ("P001", "holt_winters(up[5m], 1, 1)", "holt_winters", None),
    ("P002", LARGE, LARGE, None),
    ("P101", 'up{a=~"(?x)b"}', 'a=~"(?x)b"', None),
    ("P101", 'up{a=~"x**"}', 'a=~"x**"', None),
    ("P101", 'up{a=~"x{1001}"}', 'a=~"x{1001}"', None),
    ("P101", 'up{a="b" or a!~"(?<n>a)"}', 'a!~"(?<n>a)"', None),
    ("P101", r'up{a=~"\\p{greek}"}', r'a=~"\\p{greek}"', None),
    ("P101", 'up{a=~"[[:^^digit:]]"}', 'a=~"[[:^^digit:]]"', None),
    ("P102", 'up{a=~"[a[b]]c"}', 'a=~"[a[b]]c"', None),
    ("P102", 'up{a=~"x{01}"}', 'a=~"x{01}"', None),
    ("P102", 'up{a=~"x{03}+"}', 'a=~"x{03}+"', None),
    ("P102", r'up{a=~"\\bx\\>"}', r'a=~"\\bx\\>"', None),
    ("P103", 'up{a=~"b"}', 'a=~"b"', 'up{a="b"}'),
    ("P103", "up{ a !~ '^b$' , c=\"d\" }", "a !~ '^b$'", "up{ a != 'b' , c=\"d\" }"),
    ("P103", r'up{a=~"b\\.c"}', r'a=~"b\\.c"', 'up{a="b.c"}'),
    ("P103", r"up{a=~`b\.c`}", r"a=~`b\.c`", "up{a=`b.c`}"),
    ("P103", 'up{a=~""}', 'a=~""', 'up{a=""}'),
    ("P103", 'a + up{"b c"=~"d"} # e', '"b c"=~"d"', 'a + up{"b c"="d"} # e'),
    ("P103", "absent(up{a=~'b'})", "a=~'b'", None),
    ("P103", '{__name__=~"up"}', '__name__=~"up"', '{__name__="up"}'),
    # (a comment ends at a carriage return, too)
    ("P103", 'up{job=~"shop"} # x\r == 0', 'job=~"shop"', 'up{job="shop"} # x\r == 0'),
    ("P103", 'up{a=~"\U0001f600"}', 'a=~"\U0001f600"', 'up{a="\U0001f600"}'),
    ("P104", 'up{a=~"^b.*"}', 'a=~"^b.*"', 'up{a=~"b.*"}'),
    ("P104", 'up{a=~"b|c$"}', 'a=~"b|c$"', 'up{a=~"b|c"}'),
    ("P104", r'up{a=~"^b.\\\\$"}', r'a=~"^b.\\\\$"', r'up{a=~"b.\\\\"}'),
    ("P105", 'up{a=~".*b.*"}', 'a=~".*b.*"', None),
    ("P105", 'up{a!~".+b(c|d).+"}', 'a!~".+b(c|d).+"', None),
    ("P106", 'up{a=~".*"}', 'a=~".*"', None),
    ("P106", 'up{b="c", a=~"^.*$"}', 'a=~"^.*$"', None),
    ("P106", 'up{a=~".*", b="c"}', 'a=~".*"', None),
    ("P106", 'up{a=~"b|.*",}', 'a=~"b|.*"', None),
    ("P106", 'up{a=~".*" or b="c"}', 'a=~".*"', None),
    ("P107", 'up{a!~".*"}', 'a!~".*"', None),
    ("P108", 'up{a="b",a="c"}', 'a="c"', None),
    ("P108", 'up{a!="b",a="b"}', 'a!="b"', None),
    ("P108", 'up{a="b",a=~"c.*|d"}', 'a=~"c.*|d"', None),
    ("P108", '{__name__="up",__name__!="up"}', '__name__!="up"', None),
    ("P108", 'up{a="",a!=""}', 'a!=""', None),
    ("P109", 'up{a="b",a="b"}', 'a="b"', 'up{a="b"}'),
    ("P109", "sum(absent_over_time((up{a='b',a='b'})[5m:]))", "a='b'", None),
    ("P109", 'up{a!~"c.?",a="b"}', 'a!~"c.?"', 'up{a="b"}'),
    ("P109", 'up{a="b",a=~"b.*"}', 'a=~"b.*"', 'up{a="b"}'),
    ("P201", "sum(rate((job:x:sum)[5m:]) + increase(job:x:rate5m[5m]))", "increase(job:x:rate5m[5m])", None),
    ("P202", "rate(x[5m])", "rate(x[5m])", None),
    ("P203", "1 + deriv(x_total[5m])", "deriv(x_total[5m])", None),
    ("P203", 'predict_linear({"x_total"}[5m], 60)', 'predict_linear({"x_total"}[5m], 60)', None),
    ("P204", "increase((sum by (a) (x))[5m:])", "increase((sum by (a) (x))[5m:])", None),
    ("P205", "rate(deriv(x[5m])[1h:])", "rate(deriv(x[5m])[1h:])", None),
    ("P206", "sum(IRATE(x[5m])) > 1", None, None),
    ("P206", "sum(irate(x[5m])) > 1", "irate", None),
    ("P207", "rate(x[4m]) > 1", "[4m]", None),
    ("P208", "histogram_quantile(0.9, (x_bucket))", "x_bucket", None),
    ("P208", "histogram_quantile(0.9, sum by (le) (sum without (a) (x_bucket)))", "x_bucket", None),
    ("P301", "1 > bool 2", "1 > bool 2", None),
    ("P301", "vector(-1) == (2 * 3)", "vector(-1) == (2 * 3)", None),
    ("P302", "up == 0.5", "up == 0.5", None),
    ("P302", "-.5 != up", "-.5 != up", None),
    ("P303", "count(up) == 0", "count(up) == 0", None),
    ("P303", "0 >= count by (a) (up)", "0 >= count by (a) (up)", None),
    ("P303", "absent(up) == 0", "absent(up) == 0", None),
    ("P303", "(count_over_time(up[5m])) < 1", "(count_over_time(up[5m])) < 1", None),
    ("P304", "histogram_quantile(95, x)", "95", None),
    ("P304", "quantile by (a) (-0.1, x)", "-0.1", None),
    ("P305", "x unless on (a) (y == bool 1)", "bool", None),
    ("P306", "histogram_quantile(0.9, sum(rate(x_bucket[5m])))", "sum(rate(x_bucket[5m]))", None),
    ("P306", "histogram_quantile(0.9, sum without (le) (x_bucket))", "sum without (le) (x_bucket)", None),
    ("P307", "sort_by_label(x, 'a')", "sort_by_label", None),
    ("P308", "x > 5 < 3", "x > 5 < 3", None),
    ("P308", "5 < x <= 5", "5 < x <= 5", None),
    ("P308", "hour() == bool 24", "hour() == bool 24", None),
    ("P308", "max by (a) (day_of_week(x)) == 7", "max by (a) (day_of_week(x)) == 7", None),
    ("P308", "max_over_time((x > 2)[5m:]) < 1", "max_over_time((x > 2)[5m:]) < 1", None),
    ("P308", "absent(x) > 1", "absent(x) > 1", None),
    ("P308", "x > 5 and x < 3", "and", None),
    ("P308", "(rate(x[5m]) == 1) and 2 < (rate(x[5m]))", "and", None),
    ("P308", "x != x", "!=", None),
    ("P308", "sum(x) > (sum(x))", ">", None),
    ("P308", "x unless x", "unless", None),
    ("P308", "(x > bool 1) == 2", "(x > bool 1) == 2", None),
    ("P309", "count(x) >= 0", "count(x) >= 0", None),
    ("P309", "hour() < 24", "hour() < 24", None),
    ("P309", "x > 5 > 3", "x > 5 > 3", None),
    ("P310", "label_replace(x, 'a', '', 'b', '(.*')", "'(.*'", None),
    ("P310", "label_replace(x, 'a', '', 'b', '(?x) c')", "'(?x) c'", None),
    ("P310", "label_replace(x, ('a b'), '', 'b', 'c')", "'a b'", None),
    ("P310", "label_replace(x, '', '', 'b', 'c')", "''", None),
    ("P310", "label_join(x, 'a', ',', 'b', 'c-d')", "'c-d'", None),
    ("P310", "count_values('é', x)", "'é'", None),
    ("P401", "sum(sum by (a) (x)) by (b)", "b", None),
    ("P401", "sum by (le) (histogram_quantile(0.9, x))", "le", None),
    ("P401", "max by (a, c) (absent(x{a='b'}))", "c", None),
    ("P401", "sum by (a) (x{a=''})", "a", None),
    ("P401", "sum by (a) (absent(x{a='b',a!='c'}))", "a", None),
    ("P401", "sum by (a) (x * on (b) y)", "a", None),
    ("P401", "sum by (a) (x * ignoring (a) y)", "a", None),
    ("P402", "x * on (a, b) sum by (b) (y)", "a", None),
    ("P402", "sum by (a) (x) * ignoring (b) sum by (a) (y)", "b", None),
    ("P402", "absent(up{job='a'}) * on (job, instance) up", "instance", None),
    ("P403", "x * on (a) group_left (b, c) sum by (a, b) (y)", "c", None),
    ("P403", "sum by (a) (y) * on (a) group_right (b) x", "b", None),
    ("P404", "x{a='b'} / sum(y)", "/", None),
    ("P404", "sum by (b) (y) and x{a='b'}", "and", None),
    ("P404", "x{a=~'b.+'} / ignoring (c) sum by (c) (y)", "/", None),
    ("P404", "x{a='b'} and x{a='c'}", "and", None),
    ("P404", "absent(x{a='b'}) * on (a) (y{a='c'} or z{a='c'})", "*", None),
    ("P404", "sum by (a) (x{a='b'}) unless ignoring (d) y{a='c'}", "unless", None),
    ("P405", "absent((up{a!='b',a='c'}))", "up{a!='b',a='c'}", None),
    ("P405", "absent_over_time(up{a='b',a='b'}[5m])", "up{a='b',a='b'}[5m]", None),
    ("P406", "job:errors:sum{job='a',zone='b'}", "zone='b'", None),
    ("P406", "sum({__name__='zone:errors:max',job=~'.+'})", "job=~'.+'", None),
    ("P406", "given:errors:sum{job='a',team='shop'}", "job='a'", None),
    ("P406", "rate(two:errors:sum{instance!=''}[5m])", "instance!=''", None),
    ("P407", "sum by (a) (x) / sum(y)", "/", None),
    ("P407", "sum by (a) (x) + sum by (b) (y)", "+", None),
    ("P407", "sum(x) and count by (a) (y) > 1", "and", None),
    ("P407", "sum by (a, b) (x) == ignoring (b) max(y)", "==", None),
    ("P501", "up", "up", None),
    ("P501", "up > 1 or vector(0)", "up > 1 or vector(0)", None),
    ("P501", "sum(rate(x_total[5m])) * 2", "sum(rate(x_total[5m])) * 2", None),
    ("P502", "up == bool 0", "bool", None),
    ("P502", "(a > bool ignoring (b) c)", "bool", None),
    ("P503", "sum(up) == 0", "sum(up) == 0", None),
    ("P503", "absent(up == 0)", "absent(up == 0)", None),
    ("P504", "up", "up", None),
    ("P505", "up", "up", None),
    ("P701", "max( up )", "max( up )", None),
    ("P701", "sum(up)", "sum(up)", None),
    ("P702", "sum(job:load:max) + A", "job:load:max", None),
    ("P703", "up + job:errors:rate1m", "job:errors:rate1m", None),
    ("P601", "(up)", "(up)", "up"),
    ("P601", "a and(b)", "(b)", "a and b"),
    ("P601", "a - +(b)", "(b)", "a - +b"),
    ("P601", "a and (b)or c", "(b)", "a and b or c"),
    ("P601", "sum((a + b))", "(a + b)", "sum(a + b)"),
    ("P601", "((a + b)) * 2", "((a + b))", "(a + b) * 2"),
    ("P601", "sum(a) / (sum(b)) # (c)", "(sum(b))", "sum(a) / sum(b) # (c)"),
    ("P602", "a{ } + b{c='d'}", "{ }", "a + b{c='d'}"),
    ("P901", "up / -0", "-", None),
    ("P901", "up{a='\\xc3'}", "\\xc3", None),
    ("P902", "exp(Inf)", "exp", None),
    ("P902", 'up{a="b" or c="d"}', "or", None),
    ("P902", "1 + rate(+x[5m])", "+", None),
)
# For each code queries in which it is not found.
NOT_FOUND = (
    ("P002", 'up{a="' + "b" * 1_000 + '",a=~"' + "b?" * 100 + '"}'),
    ("P001", "up"),
    ("P101", r'up{a=~"(?i)b[[:alpha:]]+\\p{Greek}\\pL(?P<n>x)(?:y)(?s:z)"}'),
    ("P101", 'up{a=~"x{500}y{500}z{"}'),
    ("P101", 'up{a=~"x{03}+y{02}{3}"}'),
    ("P101", 'up{a="(?x)"}'),
    ("P102", r'up{a=~"[\\w.-]+x{2,3}\\b[[:digit:]]"}'),
    ("P103", 'up{a=~"b|c"}'),
    ("P103", 'up{a=~"b."}'),
    ("P103", 'up{a=~"(b)"}'),
    ("P103", 'up{a=~"(?i)b"}'),
    ("P104", r'up{a=~".b\\$"}'),
    ("P104", 'up{a=~"b.*"}'),
    ("P104", 'up{a=~"(?x)b.*$"}'),
    ("P105", r'up{a=~".*b\\.*"}'),
    ("P105", 'up{a=~".*b"}'),
    ("P105", 'up{a=~".*b|c.*"}'),
    ("P106", 'up{a=~".+"}'),
    ("P106", r'up{a=~"\\.*"}'),
    ("P107", 'up{a!~".+"}'),
    ("P108", 'up{a="b",c!="b"}'),
    ("P108", 'up{a="b" or a="c"}'),
    ("P108", 'up{a="b",a=~"[a-c]"}'),
    ("P108", 'up{a=~"b.*",a!~"b.*"}'),
    ("P109", 'up{a="b" or a="b"}'),
    ("P201", "rate(job:x_total[5m])"),
    ("P201", "rate(x[5m])"),
    ("P201", "avg_over_time(job:x:rate5m[5m])"),
    ("P203", "delta(x[5m])"),
    ("P204", "rate(x_total[5m:])"),
    ("P204", "sum_over_time(sum(x)[5m:])"),
    ("P205", "max_over_time(rate(x_total[5m])[1h:])"),
    ("P206", "rate(x[5m])"),
    ("P207", "max_over_time(rate(x[1m])[10m:1m]) > 1"),
    ("P207", "x offset 1m > 1"),
    ("P208", "histogram_quantile(0.9, rate(x_bucket[5m]))"),
    ("P208", "histogram_quantile(0.9, x)"),
    ("P208", "histogram_quantile(0.9, job:x_bucket)"),
    ("P208", "sum by (le) (x_bucket)"),
    ("P301", "vector(time()) > 2"),
    ("P302", "up == 0"),
    ("P302", "up == Inf"),
    ("P302", "up != NaN"),
    ("P302", "up < 0.5"),
    ("P303", "count(up) < 2"),
    ("P303", "(count(up) or vector(0)) == 0"),
    ("P303", "count(up) == bool 0"),
    ("P303", "sum(up) == 0"),
    ("P303", "absent(up) == 1"),
    ("P304", "histogram_quantile(1, x)"),
    ("P304", "histogram_quantile(scalar(x), y)"),
    ("P305", "x and y == 1"),
    ("P306", "histogram_quantile(0.9, sum(rate(x[5m])))"),
    ("P306", "histogram_quantile(0.9, sum by (le) (x_bucket))"),
    ("P306", "histogram_quantile(0.9, sum without (a) (x_bucket))"),
    ("P308", "x > 3 < 5"),
    ("P308", "x >= 5 <= 5"),
    ("P308", "hour() > 22"),
    ("P308", "hour() - 24 == 0"),
    ("P308", "count(x) == bool 0"),
    ("P308", "x > NaN"),
    ("P308", "(count(x) or vector(0)) > 5 < 6"),
    ("P308", "(x > 5 or x < 3) < 4"),
    ("P308", "x > 5 and y < 3"),
    ("P308", "x > 5 and on (a) x < 3"),
    ("P308", "x > bool 5 and x < bool 3"),
    ("P308", "x > 5 or x < 3"),
    ("P308", "x == x"),
    ("P308", "x > x offset 1h"),
    ("P308", "x > on (a) x"),
    ("P308", "x > on (a) fill_right (7) y < 3"),
    ("P309", "count(x) > 0"),
    ("P309", "count(x) >= 1"),
    ("P309", "absent(x) == 1"),
    ("P309", "abs(x) >= 0"),
    ("P309", "hour() >= 8"),
    ("P309", "hour() != 30"),
    ("P310", "label_replace(x, 'a', '$1', 'b', '(.*):.*')"),
    ("P310", "label_replace(x, 'service.name', 'c d', 'e f', '')"),
    ("P310", "label_join(x, 'a', ' - ', 'b')"),
    ("P401", "sum by (a) (topk(2, x))"),
    ("P401", "sum by (a) (absent(x{a!='c',a='b'}))"),
    ("P401", "sum by (a) (label_replace(sum(x), 'a', '$1', 'b', '(.*)'))"),
    ("P401", "sum by (a) (count_values('a', x))"),
    ("P401", "sum by (a) (x * on (b) group_left (a) y)"),
    ("P401", "sum by (a) (sum(x) or y)"),
    ("P401", "sum by (a) (sum without (b) (x))"),
    ("P402", "x * on (a) y"),
    ("P402", "x * on () sum(y)"),
    ("P402", "sum by (a) (x) * ignoring (a) sum(y)"),
    ("P403", "x * on (a) group_left (b) y"),
    ("P404", "x{a='b'} / on () sum(y)"),
    ("P404", "x / sum(y)"),
    ("P404", "x{a='b'} or sum(y)"),
    ("P404", "x{a=~'b.*|'} / sum(y)"),
    ("P404", "x{a!='b'} / sum(y)"),
    ("P404", "x{a='b'} * 2"),
    ("P404", "x{a='b'} or x{a='c'}"),
    ("P404", "x{a='b'} * on (d) x{a='c'}"),
    ("P404", "x{a='b'} * on (a) y{a='b'}"),
    ("P404", "label_replace(x{a='b'}, 'a', 'c', '', '') * on (a) y{a='c'}"),
    ("P404", "(x{a='b'} or x{a='d'}) * y{a='c'}"),
    ("P404", "(x{a='b'} * on (d) group_left (a) z) * on (a, d) y{a='c'}"),
    ("P406", "job:errors:sum{job='a'}"),
    ("P406", "job:errors:sum{zone!='a'}"),
    ("P406", "two:errors:sum{zone='a'}"),
    ("P406", "self:errors:sum{zone='a'}"),
    ("P406", "group:errors:sum{zone='a'} + broken:errors:sum{zone='a'} + up{zone='a'}"),
    ("P407", "sum by (a) (x) / on () group_left () sum(y)"),
    ("P407", "sum by (a) (x) / sum by (a) (y)"),
    ("P407", "sum by (a) (x) / y"),
    ("P407", "sum by (a) (x) or sum(y)"),
    ("P407", "sum by (a) (x) > 2 and on () hour() > 8"),
    ("P407", "sum by (a, b) (x) / ignoring (b) group_left () sum by (a) (y)"),
    ("P407", "sum by (a) (x) / scalar(sum(y))"),
    ("P407", "sum by (a) (x{a=''}) / sum(y)"),
    ("P405", "absent(up{a='b',c='d'})"),
    ("P405", "absent(up{a!='b',a!='c'})"),
    ("P405", "sum(up{a!='b',a='c'})"),
    ("P501", "vector(1)"),
    ("P501", "up == 0 or absent(up)"),
    ("P501", "max(job:x:bad)"),
    ("P501", "x unless y"),
    ("P501", "sum(x > 1) / sum(y)"),
    ("P502", "sum(up == bool 0) > 1"),
    ("P502", "(x > 1) == bool 2"),
    ("P503", "up == 0"),
    ("P503", "sum by (zone) (up) == 0"),
    ("P701", "max by (a) (up)"),
    ("P702", "job:load:max offset 1m + max_over_time(job:load:max[5m])"),
    ("P703", "job:errors:sum + up + job:requests:sum + errors:sum"),
    ("P601", "(a + b) * 2"),
    ("P601", "(a / b) > 1"),
    ("P601", "(a > 1) and (b > 2)"),
    ("P601", "(-a) ^ 2"),
    ("P602", "up{a='b'}"),
    ("P901", "exp(Inf)"),
    ("P902", "up / -0"),
    ("P902", "rate(a[300]) + and offset +5m + step()"),
)


def found_by(code, query):
    return [it for it in lint(query, select=(code,), context=CONTEXTS.get(code))]


def meant_by(value, changes):
    """The JSON form that a part of a query is to have after changes of a fix."""
    if id(value) in changes:
        return meant_by(changes[id(value)], changes)
    if isinstance(value, dict):
        return {key: meant_by(item, changes) for key, item in value.items()}
    if isinstance(value, list):
        return [meant_by(item, changes) for item in value if changes.get(id(item), item) is not None]
    return value


class Rules(unittest.TestCase):
    def test_found(self):
        for code, query, marked, fixed in FOUND:
            with self.subTest(code=code, query=query):
                findings = found_by(code, query)
                texts = [query[it.span.start : it.span.end] for it in findings if it.code == code]
                if marked is None:
                    # (names of functions are in small letters, and all else is rejected)
                    self.assertEqual(texts, [])
                    continue
                self.assertIn(marked, texts)
                edited = [edited_query(query, it.fix.edits) for it in findings if it.fix]
                self.assertEqual(edited[:1], [fixed] if fixed else [])

    def test_not_found(self):
        for code, query in NOT_FOUND:
            with self.subTest(code=code, query=query):
                promql.canonical(query)
                self.assertEqual(found_by(code, query), [])

    def test_each_code_is_tried(self):
        # (P003 is a finding of files, and those of a server are in test_live_checks.py)
        self.assertEqual({code for code, *_ in FOUND}, set(known_codes()) - {"P003", *LIVE})
        self.assertLessEqual({code for code, _ in NOT_FOUND}, set(known_codes()))

    def test_no_context(self):
        """What is found goes by the rule that has the query."""
        for code, query in (("P504", "up"), ("P505", "up"), ("P701", "sum(up)"), ("P702", "job:load:max"), ("P703", "job:errors:rate1m")):
            self.assertEqual(lint(query, select=(code,), context=RuleContext(record="a")), [])

    def test_page(self):
        entries = {code: (name, text) for code, name, text in ENTRY.findall(PAGE.read_text() + "##")}
        self.assertEqual(list(entries), sorted(RULES))
        for code, (name, text) in entries.items():
            with self.subTest(code=code):
                self.assertEqual(name, RULES[code].name)
                self.assertEqual("Off by default" in " ".join(text.split()), not RULES[code].is_default)
                self.assertEqual([kind for kind, _ in EXAMPLE.findall(text)], ["Bad", "Good"])
                (_, bad), (_, good) = EXAMPLE.findall(text)
                self.assertEqual({it.code for it in found_by(code, bad)}, {code})
                self.assertEqual([it.code for it in lint(good, context=None if code in BY_CONTEXT else CONTEXTS.get(code))], [])
                self.assertEqual("Fixed" in text, any(it.fix for it in found_by(code, bad)))

    def test_fixes_together(self):
        self.assertEqual(fix("((up{ a=~'^b$',c='d',c='d' })) # ((d))"), "up{ a='b',c='d' } # ((d))")
        self.assertEqual(fix("up{}\n  ==  # why\n  (1)"), "up\n  ==  # why\n  1")
        self.assertEqual(fix("nl{a=~'^.*$'}"), "nl{a=~'^.*$'}")
        self.assertEqual(fix("up{a=~'b'}", ignore=("P103",)), "up{a=~'b'}")
        self.assertEqual(fix("up +"), "up +")

    def test_lines_of_parentheses(self):
        """No line of blanks is left, and each comment ends where it did."""
        for query, fixed in (
            ("(  # why\n  up\n)", "# why\n  up"),
            ("a / (\n  b # why\n  )\n* 2", "a / b # why\n* 2"),
            ("a / (\n  b # why\n  ) * 2", "a / b # why\n   * 2"),
            ("# why\n(\n  up\n)", "# why\nup"),
            ("sum(\n  (\n    up # why\r  )\n)", "sum(\n  up # why\n)"),
            ('(\n  up{a="#"}\n) # why', 'up{a="#"}\n # why'),
        ):
            self.assertEqual(fix(query), fixed)

    def test_fix_that_would_lose_a_comment(self):
        query = "up{ # why\n}"
        self.assertEqual([it.fix for it in lint(query)], [])
        self.assertEqual(fix(query), query)

    def test_selection(self):
        query = 'sum((rate(x{a=~"b"}[5m]))) # promql: ignore P601 they help'
        self.assertEqual([it.code for it in lint(query)], ["P103"])
        self.assertEqual([it.code for it in lint(query, select=("all",))], ["P202", "P103"])
        self.assertEqual([it.code for it in lint(query, select=("P2",))], ["P202"])
        self.assertEqual([it.code for it in lint(query, ignore=("P1",))], [])
        self.assertEqual(lint("up{a=~'b'} # promql: ignore"), [])
        self.assertEqual(len(lint("up{a=~'b'} + on () up{c='# promql: ignore'}")), 1)
        for words in (("P99",), ("x",)):
            with self.assertRaises(ValueError):
                lint("up", select=words)

    def test_findings(self):
        (finding,) = lint("up{a=~'b'}")
        self.assertEqual(finding.severity, Severity.WARNING)
        (rejected,) = lint("holt_winters(x[5m], 1, 1)")
        self.assertIn("double_exponential_smoothing", rejected.message)
        self.assertEqual(lint("up +", ignore=("P001",)), [])

    def test_recorded_metrics(self):
        context = RuleContext(record="a:b", recorded={"job:x_total": 60_000})
        self.assertEqual([it.code for it in lint("rate(job:x_total[1m])", context=context)], ["P207"])
        self.assertEqual(lint("rate(job:x_total[2m])", context=context), [])
        self.assertEqual(lint("sum_over_time(job:x_total[1m])", context=context), [])


class ManyQueries(unittest.TestCase):
    """All rules over the queries of rows/ and bench/queries."""

    @classmethod
    def setUpClass(cls):
        texts = (ROOT / "bench" / "queries" / "queries.txt").read_text().splitlines()
        for path in sorted((ROOT / "rows").glob("*.tsv")):
            if path.stat().st_size < 400_000:
                texts += [cell for line in path.read_text(errors="replace").splitlines() for cell in line.split("\t")]
        cls.queries = [text for text in list(dict.fromkeys(texts))[::3] if len(text) < 2_000 and cls.accepted(text)]

    @staticmethod
    def accepted(text):
        try:
            return bool(promql.parse(text))
        except (ValueError, RecursionError):
            return False

    def test_places(self):
        self.assertGreater(len(self.queries), 1_000)
        for query in self.queries:
            subject = Subject(query, promql.parse(query))
            for node in subject.nodes:
                whole, head, braces, *_ = subject.place(node)
                self.assertTrue(0 <= whole.start <= head.start < head.end <= whole.end <= len(query), query)
                self.assertFalse(braces and query[braces.start] + query[braces.end - 1] != "{}", query)
            for node in subject.selectors:
                for matcher in subject.matchers(node):
                    place = subject.matcher_place(node, matcher)
                    self.assertEqual(matcher.tree["type"], query[slice(*place.operator)] if place else "=", query)

    def test_findings_and_fixes(self):
        context = RuleContext(alert="A", interval=60_000, template_labels=frozenset(("a", "job")))
        fixes = 0
        for query in self.queries:
            try:
                tree = promql.parse(query)
                findings = look_at_tree(query, tree, Selection(("all",)), context)
            except RecursionError:
                continue
            for finding in findings:
                self.assertTrue(0 <= finding.span.start <= finding.span.end <= len(query), query)
                if finding.fix:
                    fixes += 1
                    changed = edited_query(query, finding.fix.edits)
                    self.assertEqual(promql.parse(changed), meant_by(tree, {id(old): new for old, new in finding.fix.changes}), query)
                    self.assertEqual(comments_of(changed), comments_of(query))
        self.assertGreater(fixes, 100)

    def test_fixed_queries_have_no_fix(self):
        for query in self.queries[::3]:
            try:
                again = [it for it in lint(fix(query)) if it.fix]
            except RecursionError:
                continue
            self.assertEqual(again, [], query)

    def test_fixes_keep_the_meaning(self):
        """But for parentheses, braces and matchers, the tree is the same."""
        for query in self.queries[::3]:
            try:
                fixed = fix(query, select=("P6",))
            except RecursionError:
                continue
            self.assertEqual(bare(promql.parse(fixed)), bare(promql.parse(query)), query)


def bare(tree):
    """A tree without parentheses."""
    if isinstance(tree, dict):
        return bare(tree["expr"]) if tree.get("type") == "parenExpr" else {key: bare(value) for key, value in tree.items()}
    return [bare(item) for item in tree] if isinstance(tree, list) else tree


if __name__ == "__main__":
    unittest.main()
