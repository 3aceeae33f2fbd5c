"""Queries of about 32 kB of one construct each, which a linter that walks from each node to another takes long for."""


def joined(parts, operator="+"):
    """The parts in a balanced tree of parentheses, so that none is far down."""
    if len(parts) <= 8:
        return f"({operator.join(parts)})"
    half = len(parts) // 2
    return f"({joined(parts[:half], operator)}{operator}{joined(parts[half:], operator)})"


def many(make, size, operator="+"):
    """So many bytes of what a function makes of numbers."""
    parts, length = [], 0
    while length < size:
        parts.append(make(len(parts)))
        length += len(parts[-1]) + len(operator) + 1
    return joined(parts, operator)


def listed(make, size, before, after):
    """The same in one list."""
    parts, length = [], 0
    while length < size:
        parts.append(make(len(parts)))
        length += len(parts[-1]) + 1
    return before + ",".join(parts) + after


SIZE = 28_000
DEAR_QUERIES = {
    "names": many("n{}".format, SIZE),
    "a flat chain": "+".join(["(a)"] * 400),
    "or": many("n{}".format, SIZE, " or "),
    "comparisons": many("n{}==0.1".format, SIZE, " or "),
    "counts": many("count(n{})==0".format, SIZE, " or "),
    "constants": many(lambda number: "1>bool 2", SIZE),
    "chains of constants": many(lambda number: "a > (" + "+".join(["1"] * 300) + ")", SIZE, " or "),
    "parentheses": many(lambda number: "(a)", 24_000),
    "deep parentheses": many(lambda number: "(" * 200 + "a" + ")" * 200, SIZE),
    "parentheses with blanks": many(lambda number: "( a )", SIZE),
    "parentheses and comments": "# b\n" * 3_000 + many(lambda number: "(a)", 14_000),
    "calls": many(lambda number: "abs(" * 200 + "a" + ")" * 200, SIZE),
    "quantiles": many(lambda number: "histogram_quantile(2," * 200 + "a_bucket" + ")" * 200, SIZE),
    "arguments": listed('"n{}"'.format, SIZE, 'label_join(a,"b","c",', ")"),
    "groupings": listed("l{}".format, SIZE, "sum by (", ") (a)"),
    "labels of a side": listed("l{}".format, SIZE // 2, "sum without (", ") (a)") + listed("m{}".format, 12_000, "* on () group_left (", ") b"),
    "matchers": listed('l{}="a"'.format, SIZE, "{", "}"),
    "matchers of a chain": listed('l{}="a"'.format, SIZE, "{", "}") + "+ b" * 400,
    "equal matchers": listed(lambda number: 'l="a"', SIZE, "{", "}"),
    "matchers of a label": listed('l!="a{}"'.format, SIZE, '{l="x",', "}"),
    "patterns of one text": listed('l{}=~"a"'.format, 20_000, "{", "}"),
    "patterns of everything": listed('l{}=~".*"'.format, 20_000, '{a="b",', "}"),
    "or in braces": "{" + " or ".join(f'l{number}=~"a.*"' for number in range(1_200)) + "}",
    "matchers of absent": listed('l{0}="a",l{0}="b"'.format, SIZE, "absent({", "})"),
    "selectors": many('n{}{{a=~"b"}}'.format, SIZE),
    "ranges": many("rate(n{}[1m])".format, SIZE),
    "empty braces": many("n{}{{}}".format, SIZE),
    "a long pattern": '{a="' + "b" * 14_000 + '",a=~"' + "b?" * 6_000 + '"}',
    "a long comment": "a # " + "x" * SIZE + "\n",
    "many comments": "a" + "\n# promql: ignore P103" * 1_200,
    "a long string": '{a="' + "x" * SIZE + '"}',
    "blanks": "a" + " " * SIZE + "+ b",
}
