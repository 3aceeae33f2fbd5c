"""Files of 1 MiB of one construct each, which the tools for files take longest for; and, where that is more than they look at, of as much
as they do."""

import json

from dear_queries import DEAR_QUERIES
from promql.checked_queries import FileBounds
from promql.lsp.rules import BOUNDS as EDITOR_BOUNDS

SIZE = 1 << 20
RULES = "groups:\n- name: a\n  rules:\n"


class Filled(str):
    """A text that is made of parts, and how it is made of fewer."""

    def with_parts(self, count):
        return self.before + self.between.join(self.parts[:count]) + self.after


def filled(make, before="", after="", size=SIZE, between=""):
    """So many characters of what a function makes of numbers."""
    parts, length = [], len(before) + len(after)
    while True:
        part = make(len(parts))
        length += len(part) + len(between)
        if length > size:
            break
        parts.append(part)
    text = Filled(before + between.join(parts) + after)
    text.before, text.between, text.after, text.parts = before, between, after, parts
    return text


def rules(make):
    """A rule file of what a function makes of numbers."""
    return filled(make, RULES)


def one_rule(query_of):
    """A rule whose query, in single quotes, fills the file."""
    return filled(query_of, f"{RULES}  - record: a\n    expr: '", "'\n")


def board(make, size=SIZE):
    """A dashboard with the expressions that a function makes of numbers."""
    return filled(lambda number: '{"expr":' + json.dumps(make(number)) + "}", '{"panels":[{"targets":[', "]}]}", size, ",")


def config_map(make, name="a.yml"):
    """An object of Kubernetes with a text that is a file."""
    before = f"apiVersion: v1\nkind: ConfigMap\ndata:\n  {name}: |\n"
    return before + "".join(f"    {line}\n" for line in make(SIZE * 4 // 5).splitlines())[: SIZE - len(before)]


def long_queries(name):
    """Rules with a query of 32 kB, each a little longer than the one before."""
    query = DEAR_QUERIES[name].replace("'", "''")
    if "\n" in query:
        query = query.replace("\n", "\n\n")
    return rules(lambda number: f"  - record: a\n    expr: '{query}{' ' * number}+{number}'\n")


def small(number):
    return f"  - record: a{number}\n    expr: up  # why\n"


PATTERNS = "{" + ",".join(f"l{i}=~`(?i)\\pL`" for i in range(27)) + "}"
YAML = {
    # rules
    "small rules": rules(lambda n: f"  - record: a:b{n}\n    expr: sum(up{{a=\"{n}\"}})\n    # why\n"),
    "small rules, one query": rules(small),
    "least rules": rules(lambda n: "  - expr: a\n"),
    "least rules in braces": filled(lambda n: "{expr: a}", "groups: [{name: a, rules: [", "]}]\n", between=","),
    "other queries": filled(lambda n: f"{{record: a, expr: a{n}}}", "groups: [{name: a, rules: [", "]}]\n", between=","),
    "alerts": rules(lambda n: f"  - alert: a{n}\n    expr: up == {n}\n    for: 5m\n    labels: {{a: b}}\n    annotations: {{a: '{{{{ $value }}}}'}}\n"),
    "groups": filled(lambda n: f"- {{name: a{n}, rules: [{{record: a, expr: b}}]}}\n", "groups:\n"),
    "groups with intervals": filled(lambda n: f"- {{name: a{n}, interval: {n}s, rules: [{{record: a, expr: 'b{n}[1m]'}}]}}\n", "groups:\n"),
    "empty groups": filled(lambda n: "- {}\n", "groups:\n"),
    "rejected queries": rules(lambda n: f"  - record: a\n    expr: a + + {n} )\n"),
    "rejected rules": rules(lambda n: "  - {a: b, expr: ''}\n"),
    "unknown fields": filled(lambda n: f"a{n}: ", RULES + "  - {record: a, expr: b, ", "}\n", between=","),
    "labels": filled(lambda n: f"a{n}: b", RULES + "  - {record: a, expr: b, labels: {", "}}\n", between=","),
    "labels that are shown": filled(lambda n: f"a{n}: '{{{{ $labels.a{n} }}}}'", RULES + "  - {alert: a, expr: b, labels: {", "}}\n", between=","),
    "annotations": filled(lambda n: f"a{n}: '{{{{ if .A }}}}{n}{{{{ end }}}}'", RULES + "  - {alert: a, expr: b, annotations: {", "}}\n", between=","),
    "shared annotations": "a: &a {"
    + ",".join(f"l{n}: '{{{{ $labels.l{n} }}}}'" for n in range(15_000))
    + "}\n"
    + filled(lambda n: f"  - {{alert: A{n}, expr: up > {n}, annotations: *a}}\n", RULES, size=SIZE - 480_000),
    "a template": filled(lambda n: "{{.}}", RULES + "  - {alert: a, expr: b, annotations: {a: '", "'}}\n"),
    "templates": rules(lambda n: f"  - {{alert: a, expr: b, annotations: {{a: '{{{{ if eq .A {n} }}}}{{{{ end }}}}'}}}}\n"),
    "parentheses in templates": rules(lambda n: "  - {alert: a, expr: b, annotations: {a: '{{ " + "(" * 90 + str(n) + ")" * 90 + " }}'}}\n"),
    "durations": rules(lambda n: f"  - {{alert: a{n}, expr: b, for: 1y2w3d4h5m6s{n}ms}}\n"),
    "one query in many alerts": filled(lambda n: f"  - {{alert: A{n}, expr: *q, annotations: {{a: '{{{{ $labels.l{n} }}}}'}}}}\n", f"q: &q a+b\n{RULES}"),
    "one dear query in many alerts": filled(
        lambda n: f"  - {{alert: A{n}, expr: *q, annotations: {{a: '{{{{ $labels.l{n} }}}}'}}}}\n",
        "q: &q '" + DEAR_QUERIES["chains of constants"] + f"'\n{RULES}",
    ),
    "one query in many intervals": filled(lambda n: f"- {{name: a{n}, interval: {n}s, rules: *r}}\n", "r: &r [{record: a, expr: b}]\ngroups:\n"),
    "one list in many groups": filled(
        lambda n: f"- {{name: a{n}, interval: {n}s, rules: *r}}\n", "r: &r [" + "{record: a, expr: b}," * 20_000 + "]\ngroups:\n"
    ),
    "aliases of a rule": filled(lambda n: "*r", "r: &r {record: a, expr: b}\ngroups: [{name: a, rules: [", "]}]\n", between=","),
    "aliases of a group": filled(lambda n: "*g", "g: &g {name: a, rules: [{record: a, expr: b}]}\ngroups: [", "]\n", between=","),
    "merged rules": rules(lambda n: "  - &a {record: a, expr: b}\n" if not n else "  - {<<: *a}\n"),
    "merged again": rules(lambda n: "  - &a0 {record: a, expr: b}\n" if not n else f"  - &a{n} {{<<: *a{n - 1}}}\n"),
    "merged again, with labels": rules(
        lambda n: "  - {record: a, expr: b, labels: &a0 {c: d}}\n" if not n else f"  - {{record: a, expr: b, labels: &a{n} {{<<: *a{n - 1}}}}}\n"
    ),
    "merged lists": filled(lambda n: "*a", "a: &a {record: a, expr: b}\ngroups: [{name: a, rules: [{<<: [", "]}]}]\n", between=","),
    "silencing comments": rules(lambda n: "  # promql: ignore P602\n  - {expr: (up), record: a}\n"),
    "comments for the file": filled(lambda n: "# promql: ignore-file P101\n", after=RULES + "  - {expr: (up), record: a}\n"),
    "comments above a rule": filled(lambda n: "  # promql: ignore P101\n", RULES, "  - {expr: (up), record: a}\n"),
    "codes in a comment": filled(lambda n: "P101,", RULES + "  # promql: ignore ", "\n  - {expr: (up), record: a}\n"),
    "findings": rules(lambda n: f"  - record: a\n    expr: (up) + {n}\n"),
    "many findings in a query": rules(lambda n: "  - {record: a, expr: '" + "+".join(["(a)"] * 400) + f"+{n}'}}\n"),
    "tests": filled(lambda n: f"- {{promql_expr_test: [{{expr: a{n}}}]}}\n", "tests:\n"),
    "LogQL": rules(lambda n: f"  - {{record: a, expr: '{{a=\"b\"}} | json | c > {n}'}}\n"),
    "rules of Grafana": filled(
        lambda n: f"{{data: [{{model: {{expr: a{n}}}}}]}}", "groups: [{name: a, rules: [", "]}]\n", between=","
    ),
    "queries in other places": filled(lambda n: f"- expr: a{n}\n", "a:\n"),
    "groups in other places": filled(lambda n: f"a{n}: {{groups: [{{rules: [{{expr: a}}]}}]}}\n"),
    "groups with other names": filled(lambda n: f"group{n}: [{{rules: [{{expr: a}}]}}]\n"),
    "objects": filled(lambda n: f"- {{apiVersion: a, kind: b, spec: {{}}, a: {n}}}\n", "apiVersion: v1\nkind: List\nitems:\n"),
    "objects with rules": filled(
        lambda n: "- {apiVersion: a, kind: PrometheusRule, spec: {groups: [{name: a, rules: [{record: a, expr: b}]}]}}\n", "apiVersion: v1\nkind: List\nitems:\n"
    ),
    "objects without groups": filled(lambda n: f"- {{apiVersion: a, kind: VMRule, spec: {{group: [{{rules: [{{expr: a}}]}}]}}, a: {n}}}\n", "apiVersion: v1\nkind: List\nitems:\n"),
    # queries
    "a long name": one_rule(lambda n: "a"),
    "a long sum": one_rule(lambda n: "a+"),
    "single quotes": one_rule(lambda n: "''"),
    "escapes": filled(lambda n: "\\u0041", f"{RULES}  - record: a\n    expr: \"", "\"\n"),
    "folded lines": one_rule(lambda n: "a\n\n"),
    "a block": filled(lambda n: "      a +\n", f"{RULES}  - record: a\n    expr: |\n"),
    "a folded block": filled(lambda n: "      a +\n", f"{RULES}  - record: a\n    expr: >\n"),
    "an empty block": filled(lambda n: "\n", f"{RULES}  - record: a\n    expr: |+\n"),
    "a block far in": filled(lambda n: " " * 1_000 + "a +\n", f"{RULES}  - record: a\n    expr: |1\n"),
    "many blocks far in": rules(lambda n: "  - record: a\n    expr: |1\n" + (" " * 500 + "a +\n") * 60),
    "a comment in a query": filled(lambda n: "      # a\n", f"{RULES}  - record: a\n    expr: |\n      a\n"),
    **{f"long queries, {name}": long_queries(name) for name in DEAR_QUERIES},
    "rejected long queries": rules(lambda n: "  - {record: a, expr: 'f(" + "a+a," * 8_000 + f"a)+ + {n}'}}\n"),
    "long queries of errors": rules(lambda n: "  - {record: a, expr: '" + "$" * 32_000 + f"{n}'}}\n"),
    "dear patterns": RULES + "".join("  - {record: a, expr: '{" + ",".join(f'l{i}=~`(?i)\\pL`' for i in range(300)) + f"}} + {n}'}}\n" for n in range(50)),
    "dear patterns and fixes": rules(
        lambda n: f"  - {{record: a{n}, expr: '{{" + ",".join(f"l{i}=~`(?i)\\pL{n}x{i}`" for i in range(30)) + f"}} + (a) + {n}'}}\n"
    ),
    "one query with patterns": rules(lambda n: f"  - {{record: a{n}, expr: '{PATTERNS} + (a)'}}\n"),
    "one rejected query with patterns": rules(lambda n: f"  - {{record: a{n}, expr: '{PATTERNS} +'}}\n"),
    "small patterns": rules(lambda n: f"  - {{record: a, expr: '{{a=~\"b{n}.+\"}}'}}\n"),
    # YAML
    "texts": filled(lambda n: "a", "[", "]", between=","),
    "numbers in lines": filled(lambda n: "- 1\n"),
    "nothing in lines": filled(lambda n: "-\n"),
    "empty lists": filled(lambda n: "[]", "[", "]", between=","),
    "empty mappings": filled(lambda n: "{}", "[", "]", between=","),
    "pairs": filled(lambda n: "a: b\n"),
    "other pairs": filled(lambda n: f"a{n}: b\n"),
    "texts in groups": filled(lambda n: "a", "groups: [", "]", between=","),
    "texts in rules": filled(lambda n: "a", "groups: [{rules: [", "]}]", between=","),
    "pairs in brackets": filled(lambda n: "a: b", "[", "]", between=","),
    "keys with signs": filled(lambda n: "? a\n"),
    "lists in a list": filled(lambda n: "- " * 90 + "\n"),
    "brackets": filled(lambda n: "[" * 90 + "]" * 90, "[", "]", between=","),
    "100,000 brackets": "[" * 100_000,
    "open brackets": "[" * SIZE,
    "open braces": "{" * SIZE,
    "open keys": "? " * (SIZE // 2),
    "dashes": "- " * (SIZE // 2),
    "indentation": "".join(" " * n + "a:\n" for n in range(1_400)),
    "documents": filled(lambda n: "---\n"),
    "documents of one text": filled(lambda n: "a\n---\n"),
    "documents with rules": filled(lambda n: "groups: [{rules: [{expr: a}]}]\n---\n"),
    "anchors": filled(lambda n: f"&a{n} a", "[", "]", between=","),
    "aliases": filled(lambda n: "*a", "[&a a,", "]", between=","),
    "tags": filled(lambda n: "!!str a", "[", "]", between=","),
    "other tags": filled(lambda n: "!a a", "[", "]", between=","),
    "empty lines": "\n" * SIZE,
    "carriage returns": "\r" * SIZE,
    "blanks": " " * SIZE,
    "comments": "#\n" * (SIZE // 2),
    "a comment": "#" * SIZE,
    "comments with TABs": "# \t\n" * (SIZE // 4),
    "TABs in quotes": filled(lambda n: "'a\tb'", "[", "]", between=","),
    "TABs": "\t" * SIZE,
    "a text in quotes": "'" + "a" * (SIZE - 2) + "'",
    "lines of a text": filled(lambda n: "a\n", "'", "'"),
    "escaped quotes": filled(lambda n: "''", "'", "'"),
    "a text in two quotes": filled(lambda n: "\\n", '"', '"'),
    "a block of lines": filled(lambda n: " a\n", "a: |\n"),
    "a plain text": filled(lambda n: "a "),
    "a plain text in lines": filled(lambda n: "a\n"),
    "colons": ":" * SIZE,
    "no YAML at its end": rules(lambda n: f"  - record: a:b{n}\n    expr: sum(up)\n")[:-30] + "  - {",
    "no YAML": "}" * SIZE,
    "no text": "\x01" * SIZE,
    "a line of dots": rules(lambda n: f"  - record: a:b{n}\n    expr: sum(up)\n")[:-30] + "...\n",
    "a directive": "%TAG ! tag:a\n---\n" + rules(lambda n: f"  - record: a:b{n}\n    expr: sum(up)\n")[:-30],
    "a later directive": rules(lambda n: f"  - record: a:b{n}\n    expr: sum(up)\n")[:-30] + "%A\n",
    "a tag": rules(lambda n: f"  - record: a:b{n}\n    expr: sum(up)\n")[:-30] + "  - !a {}\n",
    # files in files
    "a ConfigMap": config_map(lambda size: filled(lambda n: f"  - record: a{n}\n    expr: up\n", RULES, size=size)),
    "a ConfigMap with a dashboard": config_map(
        lambda size: '{"targets":[\n' + ",\n".join(f'{{"expr":"a{n}"}}' for n in range(size // 20)) + "]}", "a.json"
    ),
    "ConfigMaps": filled(
        lambda n: f"apiVersion: v1\nkind: ConfigMap\ndata:\n  a.yml: |\n    groups: [{{name: a, rules: [{{record: a, expr: a{n}}}]}}]\n---\n"
    ),
    "texts of a ConfigMap": filled(lambda n: f"  a{n}.yml: 'groups: [{{rules: [{{expr: a}}]}}]'\n", "apiVersion: v1\nkind: ConfigMap\ndata:\n"),
    "texts that are no YAML": filled(lambda n: f"  a{n}.yml: 'groups: ['\n", "apiVersion: v1\nkind: ConfigMap\ndata:\n"),
    "a text far in": config_map(lambda size: filled(lambda n: " " * 900 + "a: b\n", "groups: []\n", size=size)).replace(".yml: |", ".yml: |1"),
    "a text of folded lines": filled(lambda n: "a\n\n", "kind: ConfigMap\napiVersion: v1\ndata:\n  a.yml: 'groups: []\n\n", "'\n"),
    "a text of empty lines": filled(lambda n: "\n", "kind: ConfigMap\napiVersion: v1\ndata:\n  a.yml: |+\n    groups: []\n"),
    # two characters end a line
    "empty lines after a block": filled(lambda n: "\r\n", f"{RULES}  - record: a\n    expr: |\n      up\n", "    labels: {}\n"),
}
DEEP = 900
JSON = {
    "queries": board(lambda n: f"a{n}"),
    "one query": board(lambda n: "a"),
    "queries with variables": board(lambda n: f"a{n}{{b=\"$c\"}}[$d]"),
    "some queries with variables": board(lambda n: f"a{n}{{b=\"$c\"}}[$d]", 180_000),
    "some unreadable queries": board(lambda n: f"$a + {n} $b {{$c=$d}} $e foo $f bar $g", 68_000),
    "unreadable queries": board(lambda n: f"$a + {n} $b {{$c=$d}} $e foo $f bar $g"),
    "unreadable long queries": board(lambda n: f"$a + {n} $b {{$c=$d}} $e foo $f" + " + 1" * 2_000),
    "rejected with variables": board(lambda n: f"rate(a{n}[$b]) + + $c )"),
    "variables in a query": board(lambda n: "+".join(f"$a{i}" for i in range(600)) + f"+{n}"),
    "variables in strings": board(lambda n: '{a="' + "$b" * 3_000 + f'{n}"}}'),
    "a query of variables": '{"targets":[{"expr":"' + "$a + " * (SIZE // 5 - 20) + '1"}]}',
    "a query of braces": '{"targets":[{"expr":"' + "${" * (SIZE // 2 - 20) + '"}]}',
    "a query of brackets": '{"targets":[{"expr":"' + "[[a]]" * (SIZE // 5 - 20) + '"}]}',
    "a query of escapes": '{"targets":[{"expr":"' + "\\u0061" * (SIZE // 6 - 20) + '"}]}',
    "a long query": '{"targets":[{"expr":"' + "a+" * (SIZE // 2 - 20) + 'a"}]}',
    "queries of another source": filled(lambda n: f'{{"expr":"a{n}"}}', '{"datasource":{"type":"loki"},"targets":[', "]}", between=","),
    "queries of other places": filled(lambda n: f'{{"expr":"a{n}"}}', '{"a":[', "]}", between=","),
    "variables": filled(
        lambda n: f'{{"type":"query","query":"label_values(a{n}, b)"}}', '{"panels":[{"targets":[{"expr":"a"}]}],"templating":{"list":[', "]}}", between=","
    ),
    "variables of no source": filled(lambda n: f'{{"type":"query","query":"a{n}"}}', '{"templating":{"list":[', "]}}", between=","),
    "a variable of parentheses": '{"templating":{"list":[{"type":"query","query":"label_values(' + "(" * (SIZE - 100) + '"}]}}',
    "a variable of commas": '{"templating":{"list":[{"type":"query","query":"label_values(' + "," * (SIZE - 100) + '("}]}}',
    "numbers": filled(lambda n: "1", '{"targets":[{"expr":"a"}],"a":[', "]}", between=","),
    "numbers far in": filled(lambda n: "1", '{"targets":[{"expr":"a"}],"a":' + "[" * DEEP, "]" * DEEP + "}", between=","),
    "queries far in": filled(lambda n: '{"expr":"a"}', '{"a":' + "[" * DEEP, "]" * DEEP + "}", between=","),
    "panels in panels": filled(lambda n: '{"targets":[{"expr":"a"}]}', '{"panels":[' * 400, "]}" * 400, between=","),
    "lists": filled(lambda n: "[]", '{"targets":[{"expr":"a"}],"a":[', "]}", between=","),
    "objects": filled(lambda n: '{"a":1}', '{"targets":[{"expr":"a"}],"a":[', "]}", between=","),
    "members": filled(lambda n: f'"a{n}":1', '{"targets":[{"expr":"a"}],', "}", between=","),
    "texts": filled(lambda n: '""', '{"targets":[{"expr":"a"}],"a":[', "]}", between=","),
    "blanks": '{"targets":[{"expr":"a"}]}' + " " * (SIZE - 40),
    "open lists": '{"expr":' + "[" * (SIZE - 20),
    "lists in lists": '{"expr":' + "[" * 200_000 + "]" * 200_000 + "}",
    "no JSON": '"expr"' + "a" * (SIZE - 20),
    "rules": filled(lambda n: f'{{"record":"a{n}","expr":"b"}}', '{"groups":[{"name":"a","rules":[', "]}]}", between=","),
}


# The nodes of a file that are looked at, and those of one that the editor reads, and that is fixed.
BOUNDS = ((FileBounds().max_file_nodes, "the bounds"), (EDITOR_BOUNDS.max_file_nodes, "those of the editor"))


def within(text, count, most):
    """As many parts of a text as have so many nodes, which a function counts; or nothing where all have."""
    few = min(100, len(text.parts))
    nodes, more = count(text.with_parts(few)), count(text.with_parts(2 * few))
    parts = few + (most - nodes) * few // max(more - nodes, 1)
    return text.with_parts(parts) if parts < len(text.parts) else None


def nodes_of(text):
    import yaml

    names = ("ScalarEvent", "MappingStartEvent", "SequenceStartEvent", "AliasEvent")
    return sum(type(event).__name__ in names for event in yaml.parse(text, Loader=yaml.CSafeLoader))


def values_of(text):
    def count(value):
        return 1 + sum(map(count, value.values() if isinstance(value, dict) else value if isinstance(value, list) else ()))

    return count(json.loads(text))


def dear_files():
    """The names and the texts."""
    for texts, end, count, bounds in ((YAML, ".yml", nodes_of, BOUNDS), (JSON, ".json", values_of, BOUNDS[:1])):
        for name, text in texts.items():
            yield name + end, str(text)
            for most, which in bounds if isinstance(text, Filled) else ():
                smaller = within(text, count, most)
                if smaller:
                    yield f"{name}, within {which}{end}", smaller
