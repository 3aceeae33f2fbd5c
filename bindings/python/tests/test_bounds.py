"""Tests of what the tools for files take at most: by time, by counts of what is read, and by what they say of what is over a bound."""

import json
import time
import unittest
from pathlib import Path
from tempfile import TemporaryDirectory
from unittest import mock

import promql
from command_line import run
from dear_queries import DEAR_QUERIES
from promql import checked_queries
from promql.checked_queries import Budget, FileBounds, QueryChecker, pattern_size
from promql.dashboards import Dashboard
from promql.files import Fault, LineIndex, Source
from promql.lint import file_findings, fix, fixes, lint
from promql.lint.file_findings import MOST_FINDINGS
from promql.lsp import rules as lsp_rules
from promql.lsp.layout import rule_file_edits
from promql.lsp.rules import problems_of
from promql.rule_files import RuleFile

try:
    import ruamel.yaml  # noqa: F401
except ImportError as error:
    raise unittest.SkipTest("there is no ruamel.yaml here") from error

# Each of these took from three seconds to many minutes where a rule walked from each node, or read the query for each finding. It is
# processor time, ten times of what a query takes on a slow machine.
SECONDS = 10
RULE = "groups:\n- name: a\n  rules:\n"


def seconds_of(function, *arguments, **options):
    begin = time.process_time()
    function(*arguments, **options)
    return time.process_time() - begin


class Compiling:
    """The calls of the library, which are counted where they compile the patterns of a query."""

    def __init__(self, caller):
        self.caller, self.count = caller, 0

    def __getattr__(self, name):
        def call(query, *arguments, **options):
            self.count += "~" in str(query) and name != "tokens" and promql.limits()["max_patterns"] > 0
            return getattr(self.caller, name)(query, *arguments, **options)

        return call


class LongQueries(unittest.TestCase):
    def test_lint(self):
        for name, query in DEAR_QUERIES.items():
            with self.subTest(name=name):
                promql.canonical(query)
                self.assertLess(seconds_of(lint, query, select=["all"]), SECONDS)

    def test_fix(self):
        """A query is read so often at most to check its fixes, however many there are."""
        for name in ("a flat chain", "parentheses", "deep parentheses", "equal matchers", "patterns of one text", "selectors", "empty braces"):
            with self.subTest(name=name):
                self.assertLess(seconds_of(fix, DEAR_QUERIES[name]), SECONDS)
                with mock.patch.object(promql, "parse", wraps=promql.parse) as parse:
                    lint(DEAR_QUERIES[name])
                self.assertLessEqual(parse.call_count, 3)
                fixed = fix(DEAR_QUERIES[name])
                self.assertEqual([it.code for it in lint(fixed) if it.fix], [])

    def test_patterns(self):
        """Patterns of a query are compiled as often as it is read: four times, and once for its fixes."""
        for query, count in (('{a=~"b.+"} + (c)', 5), ('{a=~"b.+"} + c', 2)):
            with mock.patch.object(promql, "_caller", wraps=promql._caller) as caller:
                lint(query)
            self.assertEqual(sum(call[1][:1] == (query,) or call[1][:1] == ('{a=~"b.+"} + c',) for call in caller.mock_calls if call[0] != "tokens"), count)

    def test_wrong_fixes(self):
        """Fixes that are wrong are found by halves, and the others are kept."""
        query = "+".join(["(a)"] * 100)
        wrong = fixes.edited

        def edited(text, edits):
            edited_text = wrong(text, edits)
            # (the third name is lost where its parentheses are taken away)
            return edited_text.replace("+a+", "+b+", 1) if any(edit.start == 8 for edit in edits) else edited_text

        with mock.patch.object(fixes, "edited", edited):
            found = lint(query, select=["P601"])
        self.assertEqual([number for number, it in enumerate(found) if not it.fix], [2])


class Patterns(unittest.TestCase):
    def test_size(self):
        for query, size in (("up", 0), ('{a=~"b"}', 7), ('{a=~"b",c!~"dddd"} + ', 17), ('{a="b"} "=~"', 0), ('a=~"', 0), ("{a=~'\udc80'}", 0)):
            self.assertEqual(pattern_size(query), size, query)
        limits = {"max_len": 32_768, "max_patterns": 16_000, "max_output": 4_194_304, "max_tree": 4_194_304}
        self.assertEqual(promql.limits(), limits)

    def test_budget(self):
        checker = QueryChecker(FileBounds(max_file_patterns=20))
        self.assertTrue(checker.admits('{a=~"b"}'))
        self.assertTrue(checker.admits('{a=~"b"}'))
        self.assertTrue(checker.admits('{a=~"c"}'))
        self.assertFalse(checker.admits('{a=~"d"}'))
        # (what is over the bound stays so, and what was counted or has no pattern does not)
        self.assertFalse(checker.admits('{a=~""}'))
        self.assertTrue(checker.admits('{a=~"c"}') and checker.admits("up"))
        # (patterns that the library does not compile count for nothing)
        self.assertTrue(QueryChecker(FileBounds(max_file_patterns=20)).admits('{a=~"' + "x{900}" * 40 + '"}'))

    def test_once(self):
        """A text is asked about once in a run."""
        with mock.patch.object(promql, "check", wraps=promql.check) as check:
            errors = [QueryChecker.error("once_alone(1)") for _ in range(3)]
        self.assertEqual(check.call_count, 1)
        self.assertEqual({str(error) for error in errors}, {"1:1: unknown function with name 'once_alone'"})

    def test_kept_verdicts(self):
        """What is known of texts is forgotten where it is too much."""
        with mock.patch.object(checked_queries, "_MOST_KEPT", 10_000):
            for number in range(100):
                QueryChecker.error(f"up > {number}")
        self.assertLessEqual(len(checked_queries.VERDICTS), 11)

    def test_explanations(self):
        """What was expected is said as long as it is not too dear: each time that a query is read for it counts."""
        dear = "{" + ",".join(f'l{number}=~"(?i)\\\\pL"' for number in range(25)) + "} b"
        board = Dashboard(Source("a.json", json.dumps({"targets": [{"expr": dear}] * 9}), ""))
        faults = QueryChecker(FileBounds(2 * pattern_size(dear))).faults(board.queries)
        told = [fault.message.startswith("unexpected identifier") for fault in faults]
        self.assertEqual(told, [True] * 2 + [False] * 7)
        self.assertEqual(faults[-1].message, "invalid promql query")

    def test_files(self):
        """Files with more patterns than they may have: it is told where, and of how many queries, by each command."""
        queries = [f'up{{a=~"b{number}.+"}}' for number in range(5)]
        with TemporaryDirectory() as folder:
            rules, board = Path(folder, "a.yml"), Path(folder, "a.json")
            rules.write_text(RULE + "".join(f"  - {{record: 'a:{number}', expr: '{query}'}}\n" for number, query in enumerate([*queries, "up ==", queries[0]])))
            board.write_text(json.dumps({"targets": [{"expr": query} for query in [*queries, "up ==", queries[0]]]}))
            size = sum(map(pattern_size, queries))
            for path in (rules, board):
                bound = f"--max-file-patterns={size - 5}"
                for command, status in (("check", 4), ("lint", 2), ("format", 4)):
                    with self.subTest(path=path, command=command):
                        ran = run(command, bound, path)
                        self.assertEqual(ran.status, status)
                        self.assertRegex(ran.out + ran.err, r"a\.\w+:\d+:\d+: the patterns of the file are too large together: \d+, at most \d+; this query is not")
                        self.assertRegex(ran.out + ran.err, r"a\.\w+:\d+:\d+: (error P001: )?unexpected end of query")
                        self.assertNotIn("too large", "".join(run(command, path)[1:]))
            self.assertIn("and 1 more with patterns are not", run("check", f"--max-file-patterns={size - 12}", rules).err)

    def test_trials(self):
        """Readings of variables are tried so often in a dashboard."""
        expr = "(a + $x $y $z) + " + "+".join(["b"] * 200)
        board = json.dumps({"targets": [{"expr": f"{expr} + {number}"} for number in range(400)]})
        self.assertLess(seconds_of(Dashboard, Source("a.json", board, "")), 3 * SECONDS)


class Calls(unittest.TestCase):
    """How often the library is asked: no more than is printed."""

    def count(self, name, function, *arguments):
        with mock.patch.object(promql, name, wraps=getattr(promql, name)) as call:
            function(*arguments)
        return call.call_count

    def test_places(self):
        """Places are asked for where there is a finding alone."""
        for name in ("places", "parts", "_tokens"):
            self.assertEqual(self.count(name, lint, 'sum by (job) (rate(up_total{job="a",b=~"c.*d"}[5m])) > 0.5'), 0, name)
        self.assertEqual(self.count("places", lint, 'up{a=~"b",c=~"d"}'), 1)

    def test_logql(self):
        """Only what may be LogQL is split into tokens."""
        text = RULE + "".join(f"  - {{record: a, expr: 'up{{a=\"{number}\"}} + b'}}\n" for number in range(9))
        self.assertEqual(self.count("_tokens", RuleFile, Source("a.yml", text, "")), 0)

    def test_variables(self):
        """A query with variables is split into tokens once, however many readings are tried."""
        board = json.dumps({"targets": [{"expr": "(a + $x $y $z) + once_alone"}]})
        checker = QueryChecker()
        with mock.patch.object(checker, "error", wraps=checker.error) as error:
            tokens = self.count("_tokens", Dashboard, Source("a.json", board, ""), None, checker)
        self.assertGreater(error.call_count, 20)
        self.assertEqual(tokens, 1)


class Aliases(unittest.TestCase):
    def lint(self, text, *options):
        with TemporaryDirectory() as folder:
            path = Path(folder, "a.yml")
            path.write_text(text)
            begin = time.process_time()
            ran = run("lint", *options, path)
            self.assertLess(time.process_time() - begin, SECONDS)
            return ran

    def test_rules(self):
        """A rule is looked at once for all its aliases in groups of one interval."""
        text = "r: &r [&q {alert: A, expr: (up)}" + ", *q" * 999 + "]\ng: &g {name: a, rules: *r}\ngroups: [*g" + ", *g" * 800 + "]\n"
        ran = self.lint(text)
        self.assertEqual((ran.status, ran.out.count(" P601: ")), (1, 1))
        self.assertEqual(self.lint(text, "--fix").status, 1)

    def test_intervals(self):
        groups = "".join(f"- {{name: g{number}, interval: {number + 1}s, rules: *r}}\n" for number in range(500))
        ran = self.lint("r: &r [&q {alert: A, expr: (up)}" + ", *q" * 400 + "]\ngroups:\n" + groups)
        self.assertEqual((ran.status, ran.out.count(" P601: ")), (2, 1))
        self.assertIn(":1:8: its aliases are in groups of more than 8 intervals: the rule is looked at with 8 of these", ran.err)

    def test_contexts(self):
        """A query that is in many alerts, whose templates differ."""
        rules = "".join(f"  - {{alert: A{number}, expr: *q, annotations: {{a: '{{{{ $labels.l{number} }}}}'}}}}\n" for number in range(2_000))
        ran = self.lint("q: &q '" + "+".join(["up"] * 400) + "'\n" + RULE + rules)
        self.assertEqual(ran.status, 2)
        self.assertIn(":1:8: an alias has it in 2,000 rules that differ: it is looked at for 16 of these", ran.err)

    def test_templates(self):
        """Alerts that share annotations with many labels, and annotations that have braces or questions alone."""
        shown = ",".join(f"l{number}: '{{{{ $labels.l{number} }}}}'" for number in range(3_000))
        rules = "".join(f"  - {{alert: A{number}, expr: up > {number}, annotations: *a}}\n" for number in range(2_000))
        self.assertEqual(self.lint(f"a: &a {{{shown}}}\n{RULE}{rules}").status, 0)
        for text in ("{{" * 250_000, "{{" + " if" * 150_000 + "}}"):
            self.assertEqual(self.lint(RULE + f"  - {{alert: A, expr: up > 1, annotations: {{a: '{text}'}}}}\n").status, 0)

    def test_silences(self):
        rules = "".join(f"  # promql: ignore P602\n  - {{expr: (up), record: a{number}}}\n" for number in range(3_000))
        ran = self.lint("# promql: ignore-file P101\n" * 2_000 + RULE + rules)
        self.assertEqual((ran.status, ran.out.count(" P601: ")), (1, 3_000))


class Findings(unittest.TestCase):
    def test_many(self):
        """After so many findings a file is not looked at further."""
        query = "+".join(["(a)"] * 400)
        with TemporaryDirectory() as folder:
            path = Path(folder, "a.yml")
            path.write_text(RULE + "".join(f"  - {{record: b, expr: '{query}'}}\n" for _ in range(40)))
            ran = run("lint", path)
            self.assertEqual((ran.status, ran.out.count(" P601: ")), (2, 5_200))
            self.assertIn(f":17:24: not looked at from here on: there are more than {MOST_FINDINGS:,} findings before", ran.err)

    def test_json(self):
        """Changed queries are left out of a report where they are too long together."""
        with TemporaryDirectory() as folder:
            path = Path(folder, "a.promql.json")
            path.write_text(json.dumps({"targets": [{"expr": DEAR_QUERIES["deep parentheses"].replace("a", "b")}]}))
            ran = run("lint", "--select=P601", "--output=json", path)
        fixes_found = [it["fix"] for it in json.loads(ran.out) if it["fix"]]
        queries = [it["query"] for it in fixes_found]
        self.assertLess(len(ran.out), 30_000_000)
        self.assertTrue(queries[0] and queries[-1] is None and fixes_found[-1]["edits"])


class LargeFiles(unittest.TestCase):
    """What is said of a file that has more than is looked at, by each command, and with which status."""

    def ran(self, name, text, *options):
        with TemporaryDirectory() as folder:
            path = Path(folder, name)
            path.write_text(text)
            begin = time.process_time()
            ran = run(*options, path)
            self.assertLess(time.process_time() - begin, SECONDS)
            return ran

    def assert_refused(self, name, text, said, *options):
        for command in (["check"], ["lint"], ["lint", "--fix"], ["format", "--check"]):
            with self.subTest(command=command):
                ran = self.ran(name, text, *command, *options)
                self.assertEqual((ran.status, ran.out), (2, ""))
                self.assertIn(said, ran.err)

    def test_nodes(self):
        """Nodes are keys, values and aliases, lists and mappings; of JSON the keys are none."""
        text = RULE + "  - {record: a, expr: b}\n" * 3
        said = ":6:14: not looked at: the file has more than 20 nodes of YAML, up to here (--max-file-nodes)\n  - {record: a, expr: b}\n"
        self.assert_refused("a.yml", text, said, "--max-file-nodes=20")
        self.assertEqual(self.ran("a.yml", text, "check", "--max-file-nodes=23").status, 0)
        text = json.dumps({"targets": [{"expr": "up"}, {"expr": "up"}]})
        said = ":1:39: not looked at: the file has more than 5 values of JSON, up to here (--max-file-nodes)\n"
        self.assert_refused("a.json", text, said, "--max-file-nodes=5")
        self.assertEqual(self.ran("a.json", text, "check", "--max-file-nodes=6").status, 0)
        for text in ("[" + "a," * 200_000 + "]", "- {}\n" * 150_000, "---\n" * 200_000):
            self.assert_refused("a.yml", text, "more than 50,000 nodes of YAML")

    def test_nodes_of_fixes(self):
        """A file that is fixed is read again, so it has fewer nodes, by seven tenths; without a fix it has all."""
        text = RULE + "".join(f"  - {{record: a{number}, expr: (b)}}\n" for number in range(3))
        for most, status in ((29, 2), (33, 0)):
            ran = self.ran("a.yml", text, "lint", "--fix", f"--max-file-nodes={most}")
            self.assertEqual((ran.status, "3 queries fixed" in ran.out), (status, not status))
            said = ":1:1: not looked at: a file of more than 20 nodes of YAML is not fixed (--max-file-nodes)\ngroups:\n^\n"
            self.assertEqual(ran.err.endswith(said), most == 29)
        self.assertEqual(self.ran("a.yml", text, "lint", "--max-file-nodes=29").out.count(" P601: "), 3)

    def test_texts(self):
        """The nodes of files that are texts are those of the file, too."""
        texts = "".join(f"  a{number}.yml: 'groups: [{{rules: [{{record: a, expr: b}}]}}]'\n" for number in range(20_000))
        ran = self.ran("a.yml", "apiVersion: v1\nkind: ConfigMap\ndata:\n" + texts[: texts.index("  a15000")], "check")
        self.assertEqual((ran.status, ran.out), (2, ""))
        self.assertRegex(ran.err, r"/a.yml:\d+:\d+: in the text `a\d+.yml`: not looked at: the file has more than \d+ nodes of YAML, up to here")

    def test_nodes_in_the_editor(self):
        rules, problems = problems_of(RULE + "  - {record: a, expr: b}\n" * 20_000)
        self.assertEqual((rules, [(it.start > 140_000, it.message[:13]) for it in problems]), (None, [(True, "not looked at")]))
        self.assertIn("more than 35,000 nodes of YAML", problems[0].message)

    def test_same_queries(self):
        """The patterns of a query are compiled as often for many rules that have it as for two."""
        commands = (["check"], ["lint"], ["lint", "--fix"], ["format", "--check"], ["format", "--check", "--style=pretty"])
        for query in ('{a=~"b.+"} + (c)', '{a=~"b.+"}+c', '{a=~"b.+"} +'):
            for command in (*commands, ["format", "--check", "--enforce=a='b'"]):
                counts = []
                for number in (2, 20):
                    checked_queries.VERDICTS.forget()
                    text = RULE + "".join(f"  - {{record: a{at}, expr: '{query}'}}\n" for at in range(number))
                    with mock.patch.object(file_findings.LOOKS, "_known", checked_queries.Store()):
                        with mock.patch.object(promql, "_caller", Compiling(promql._caller)) as caller:
                            self.ran("a.yml", text, *command)
                    counts.append(caller.count)
                self.assertEqual(counts[0], counts[1], (query, command))

    def test_laid_out_by_the_editor(self):
        """Queries with patterns beyond the bound of the file stay as they are, and the others are laid out."""
        queries = [f'{{a=~"b{number}.+"}}+c' for number in range(3)] + ["b+c"]
        text = RULE + "".join(f"  - {{record: a, expr: '{query}'}}\n" for query in queries)
        for most, count in ((sum(map(pattern_size, queries)), 4), (sum(map(pattern_size, queries)) - 1, 3)):
            with mock.patch.object(lsp_rules, "BOUNDS", FileBounds(max_file_patterns=most)):
                lsp_rules.file_of.cache_clear()
                self.assertEqual(len(rule_file_edits(text, None)), count)
        lsp_rules.file_of.cache_clear()

    def test_told_by_the_editor(self):
        """What is in queries is told of so many tokens, and each query counts as ten more."""
        text = RULE + "".join(f"  - {{record: a, expr: b{number}}}\n" for number in range(6))
        for most, count in ((65, 5), (66, 6)):
            with mock.patch.object(lsp_rules, "_MOST_TOKENS", most):
                rules, problems = problems_of(text)
            self.assertEqual(sum(len(rule.queries) for rule in rules), count)
            said = [(it.start, it.message) for it in problems if "not told" in it.message]
            message = "what is in the queries is not told from here on: those of the file have more than 65 tokens"
            self.assertEqual(said, [] if most == 66 else [(text.index("b5"), message)])

    def test_exact_yaml(self):
        """What libyaml does not read, or not surely so, is read by ruamel.yaml, as far as that goes."""
        text = RULE + "  - {record: a, expr: b}\n" * 10
        bound = "ruamel.yaml reads at most 200 characters of a file (--max-exact-yaml)\n"
        said = f":14:1: not looked at: libyaml may read this otherwise, and {bound}...\n^"
        self.assert_refused("a.yml", text + "...\n", said, "--max-exact-yaml=200")
        said = f"not looked at: not YAML to libyaml: did not find expected key, and {bound}"
        self.assert_refused("a.yml", text + "]\n", said, "--max-exact-yaml=200")
        self.assertEqual(self.ran("a.yml", text + "...\n", "check").status, 0)
        # (a file that is laid out is read again)
        text = text.replace("expr: b", "expr: b+b")
        ran = self.ran("a.yml", text + "...\n", "format", "--max-exact-yaml=2000")
        self.assertEqual((ran.status, ran.out), (2, ""))
        self.assertIn("libyaml may read this otherwise, and ruamel.yaml reads at most 2,000 characters of a file", ran.err)
        self.assertEqual(self.ran("a.yml", text + "...\n", "format", "--check", "--max-exact-yaml=4000").status, 19)

    def test_levels(self):
        self.assert_refused("a.yml", "[" * 100_000, "nested too deeply")
        self.assert_refused("a.json", '{"expr": ' + "[" * 101 + "]" * 101 + "}", "nested too deeply")

    def test_linted(self):
        """A query counts by its tokens but those of punctuation, and by four more, and again where its fixes are checked; one that was
        looked at in the run counts nothing."""
        text = RULE + "".join(f"  - {{record: a, expr: (a{number})}}\n" for number in range(4)) + "  - {record: b, expr: (a0)}\n"
        for status, count in ((2, 29), (1, 48)):
            with mock.patch.object(file_findings.LOOKS, "_known", checked_queries.Store()):
                ran = self.ran("a.yml", text, "lint", f"--max-lint-tokens={count}")
            self.assertEqual((ran.status, ran.out.count(" P601: ")), (status, 5 if status == 1 else 2))
            self.assertEqual(":6:23: not looked at from here on: the queries of the file have more than 29 tokens" in ran.err, status == 2)
        with mock.patch.object(file_findings.LOOKS, "_known", checked_queries.Store()):
            ran = self.ran("a.yml", text, "lint", "--fix", "--max-lint-tokens=34")
        # (each is read three times for its fix: as it is, to check the fix, and as it is changed; what is left is not looked at then)
        self.assertEqual((ran.status, "2 queries fixed, no findings" in ran.out), (2, True))
        self.assertIn(":6:23: not looked at from here on: the queries of the file have more than 34 tokens together (--max-lint-tokens)", ran.err)
        self.assertEqual(ran.err.count("not looked at"), 1)
        query = 'up{a=~"(b|c){200}"} + (a)'
        for most, is_left in ((11 + pattern_size(query) // 4, True), (10 + pattern_size(query) // 4, False)):
            self.assertEqual(checked_queries.takes(query, Budget(most)), is_left)
        budget = Budget(5)
        self.assertEqual([budget.takes(amount) for amount in (5, 0, 1, 0)], [True, True, False, False])

    def test_circles(self):
        """Queries of rules that seem to be in a circle are read as far as their tokens go, each once."""
        text = RULE + "".join(f"  - {{record: a, expr: 'b{number} # a'}}\n" for number in range(9)) * 2
        said = ":1:1: not looked for: all rules in a circle, of which the queries have more than 40 tokens (--max-lint-tokens)"
        for count, is_told in ((40, True), (54, False)):
            with mock.patch.object(file_findings.LOOKS, "_known", checked_queries.Store()):
                self.assertEqual(said in self.ran("a.yml", text, "lint", f"--max-lint-tokens={count}").err, is_told)
        text = RULE + "".join(f"  - {{record: a, expr: '{'+'.join(['(a)'] * 400)}+{number}'}}\n" for number in range(600))
        with mock.patch.object(file_findings.LOOKS, "_known", checked_queries.Store()):
            ran = self.ran("a.yml", text, "lint")
        self.assertEqual((ran.status, "--max-lint-tokens" in ran.err), (2, True))

    def test_changed(self):
        """Long parts that change are not compared where there are many of them."""
        text = RULE + "".join(f"  - {{record: b, expr: {'+'.join(['(a)'] * 230)}+{number}}}\n" for number in range(8))
        with mock.patch.object(file_findings.LOOKS, "_known", checked_queries.Store()):
            ran = self.ran("a.yml", text, "lint", "--fix")
        self.assertEqual((ran.status, ran.out), (0, ran.out.partition(": ")[0] + ": 8 rules, 8 queries fixed, no findings\n"))

    def test_listed(self):
        """So many errors, warnings and skipped queries of a file are named."""
        ran = self.ran("a.yml", "groups:\n" + "- {}\n" * 10_000, "check")
        self.assertEqual((ran.status, ran.err.count("a group without `name`")), (1, 5_000))
        self.assertIn(":5002:3: 5,000 more errors from here on are not listed\n", ran.err)
        ran = self.ran("a.yml", RULE + "  - {record: a, expr: b}\n" * 9_000, "check")
        self.assertEqual((ran.status, ran.err.count("is there before")), (0, 5_000))
        self.assertIn(":5005:5: warning: 3,999 more warnings from here on are not listed\n", ran.err)
        targets = [{"expr": "a", "datasource": {"type": "loki"}}] * 7_000
        ran = self.ran("a.json", json.dumps({"targets": targets}), "check")
        self.assertEqual((ran.status, ran.err.count("skipped: ")), (0, 5_000))
        self.assertIn("its data source is of the type loki; so are 2,000 more\n", ran.err)

    def test_variables(self):
        text = json.dumps({"targets": [{"expr": f"a{number}[$b]"} for number in range(7_501)]})
        self.assert_refused("a.json", text, "not looked at: the queries of the file have more than 7,500 variables of Grafana, up to here")

    def test_templates(self):
        rules = "".join(f"  - {{alert: a{n}, expr: b, annotations: {{c: '{{{{ print {n} {'1 ' * 40}}}}}'}}}}\n" for n in range(1_200))
        ran = self.ran("a.yml", RULE + rules, "check")
        self.assertEqual((ran.status, ran.err.count("not looked at")), (1, 1))
        self.assertIn("not looked at from here on: the templates of the file have more than 100,000 characters in braces\n", ran.err)

    def test_messages(self):
        """A long text of a query is cut off in the messages about it."""
        (found,) = [it for it in lint('{l="' + "a" * 20_000 + '",l!="b"}') if it.code == "P109"]
        self.assertEqual((len(found.message), found.message[-2:]), (501, "a…"))

    def test_folders(self):
        """A file of a folder that has too much is one with an error, if it may have a query; many lines may come before an error."""
        for text, status in (("[" + "a," * 60_000 + "]", 66), ("[" + "a," * 60_000 + "{expr: a}]", 2), ('["\\x65",' + "a," * 60_000 + "]", 2)):
            with TemporaryDirectory() as folder:
                Path(folder, "a.yml").write_text(text)
                Path(folder, "b.yml").write_text("\n" * 150_000 + "}")
                begin = time.process_time()
                self.assertEqual(run("check", folder).status, status)
                self.assertLess(time.process_time() - begin, SECONDS)

    def test_settings(self):
        for text in ("# a\n" * 20_000, "a" + ".a" * 5_000 + " = 1\n", "[tool.promql]\nignore = ['P1']\n" + "#" * 70_000):
            with TemporaryDirectory() as folder:
                Path(folder, ".promql.toml").write_text(text)
                Path(folder, "a.yml").write_text("groups: []\n")
                ran = run("check", Path(folder, "a.yml"))
                self.assertEqual(ran.status, 2)
                self.assertIn(".promql.toml: settings have at most 65,536 characters, and 4,096 in a line\n", ran.err)


class Scalars(unittest.TestCase):
    def query(self, text):
        begin = time.process_time()
        (query,) = RuleFile(Source("a", RULE + text, "")).queries
        self.assertLess(time.process_time() - begin, SECONDS)
        return query

    def test_empty_lines(self):
        """Empty lines after a block, whose ends have two characters each."""
        query = self.query("  - record: a\r\n    expr: |\r\n      up\r\n" + "\r\n" * 5_000 + "    labels: {}\r\n")
        self.assertFalse(query.spelling.has_comment_below())
        query = self.query("  - record: a\r\n    expr: |\r\n        up\r\n" + "\r\n" * 5_000 + "      # b\r\n    labels: {}\r\n")
        self.assertTrue(query.spelling.has_comment_below())

    def test_blanks(self):
        """Lines of a block that are far in, of which the first blanks are its indentation."""
        query = self.query("  - record: a\n    expr: |1\n" + (" " * 2_000 + "up\n") * 300)
        offsets = query.spelling.offsets(query.value)
        self.assertEqual((query.text[:1_997], offsets[0]), (" " * 1_995 + "up", len(RULE) + 32))

    def test_parts(self):
        """A text of many parts."""
        for text in ("'" + "''" * 300_000 + "'", '"' + "\\u0061" * 150_000 + '"', "'" + "a\n\n" * 150_000 + "'"):
            query = self.query(f"  - record: a\n    expr: {text}\n")
            offsets = query.spelling.offsets(query.value)
            self.assertEqual((offsets[0], len(offsets)), (len(RULE) + 25, len(query.value) + 1))
            self.assertEqual((query.offsets[0], len(query.offsets)), (len(RULE) + 25, len(query.value) + 1))


class Lines(unittest.TestCase):
    def test_memory(self):
        """Eight million lines are told apart with little memory and time."""
        text = "\n" * 8_000_000
        begin = time.process_time()
        index = LineIndex(text)
        self.assertEqual([index.place(at) for at in (0, 5, 7_999_999)], [(1, 1), (6, 1), (8_000_000, 1)])
        self.assertEqual((index.line_begin(4_000_000), index.line_begin(9_000_000)), (4_000_000, 8_000_000))
        self.assertLess(time.process_time() - begin, SECONDS)
        source = Source("a", "\r\n" * 20_000 + "ab\rc", "")
        self.assertEqual(source.located(Fault(40_003, 40_003, "x")), "a:20002:1: x")


if __name__ == "__main__":
    unittest.main()
