"""Tests of the pictures of trees: their labels, and where their boxes and lines are."""

import json
import unittest
import xml.etree.ElementTree as ElementTree
from itertools import combinations
from pathlib import Path

import promql
from promql import drawing
from promql.labels import children_of, kind_of, labels_of, nodes_of

ROOT = Path(__file__).resolve().parents[3]
SVG = "{http://www.w3.org/2000/svg}"
# A query, and the kind and the label of each node, each before those below it.
LABELS = (
    ("1e3", ["number 1000"]),
    ("'a\"b'", [r'string "a\"b"']),
    ("foo", ["selector foo"]),
    ("{b!='1',a=~'2'} @ 1.5 offset -90s", ['selector {a=~"2",b!="1"} @ 1.500 offset -1m30s']),
    ("foo{a='1' or 'b c'!~'2'}", ['selector foo{a="1" or "b c"!~"2"}']),
    ("foo @ end()", ["selector foo @ end()"]),
    ("foo[1w] smoothed offset 1y", ["range selector foo[1w] smoothed offset 1y"]),
    ("(foo)", ["parentheses ( )", "selector foo"]),
    ("-foo", ["sign -", "selector foo"]),
    ("foo[1d2h3m4s5ms:] @ -0.5", ["subquery [1d2h3m4s5ms:] @ -0.500", "selector foo"]),
    ("foo[1h:5m]", ["subquery [1h:5m]", "selector foo"]),
    ("foo[90.0005:1.0005]", ["subquery [90.0005:1.0005]", "selector foo"]),
    ("time()", ["call time"]),
    ("clamp_min(foo, 1)", ["call clamp_min", "selector foo", "number 1"]),
    ("sum(foo)", ["aggregation sum", "selector foo"]),
    ("sum without () (foo)", ["aggregation sum without ()", "selector foo"]),
    ("topk by (a, 'inf') (1, foo)", ['aggregation topk by (a, "inf")', "number 1", "selector foo"]),
    ("a + b", ["operator +", "selector a", "selector b"]),
    ("a > bool on () b", ["operator > bool on ()", "selector a", "selector b"]),
    ("a / ignoring (c) group_left (d, e) b", ["operator / ignoring (c) group_left (d, e)", "selector a", "selector b"]),
    ("a / on (c) group_right () b", ["operator / on (c) group_right ()", "selector a", "selector b"]),
    ("a + fill (0) b", ["operator + fill (0)", "selector a", "selector b"]),
    ("a + fill_left (0) b", ["operator + fill_left (0)", "selector a", "selector b"]),
    ("a + fill_left (0) fill_right (1) b", ["operator + fill_left (0) fill_right (1)", "selector a", "selector b"]),
)
HOSTILE = "label_replace(foo{a=\"<script>alert('&')</script>\",b='\\u0000\\u202e]]>'}, 'a', \"\\ufffe<!--\", 'b', 'c')"


def line_of(tree, labels):
    """The canonical line, made up of the labels."""
    kind, label, below = kind_of(tree), labels[id(tree)], [line_of(child, labels) for child in children_of(tree)]
    if kind == "operator":
        return f"{below[0]} {label} {below[1]}"
    if kind == "parentheses":
        return f"({below[0]})"
    if kind in ("aggregation", "call"):
        return f"{label}{' ' if label.endswith(')') else ''}({', '.join(below)})"
    if kind == "sign":
        return label + below[0]
    return "".join(below) + label


def made_up_lines():
    """The queries of the rows that are accepted, with their lines of labels; without those that nest too deeply for this."""
    for line in (ROOT / "crates" / "promql" / "stdin").read_bytes().split(b"\n"):
        try:
            query = promql.canonical(json.loads(line))
            nodes = nodes_of(promql.parse(query))
            yield query, line_of(nodes[0], dict(zip(map(id, nodes), labels_of(query, nodes))))
        except (ValueError, TypeError, RecursionError):
            pass


def example_queries():
    return (ROOT / "bench" / "queries" / "queries.txt").read_text(encoding="utf-8").splitlines()


def are_apart(box, left, top, right, bottom):
    """Whether a box and a rectangle have nothing in common but points at their sides."""
    half = box.height / 2
    return right <= box.x or box.x + box.width <= left or bottom <= box.y - half or box.y + half <= top


class Labels(unittest.TestCase):
    def test_each_kind(self):
        for query, wanted in LABELS:
            found = [f"{box.kind} {box.label}" for box in drawing.layout(query)]
            self.assertEqual(found, wanted, query)
        kinds = {label.split(" ")[0] for _, labels in LABELS for label in labels}
        self.assertEqual(len(kinds), 10)

    def test_they_make_up_the_line(self):
        compared = 0
        for line, made_up in made_up_lines():
            self.assertEqual(made_up, line, line[:500])
            compared += 1
        self.assertGreater(compared, 7000)


class Places(unittest.TestCase):
    def look_at(self, boxes):
        """No two boxes overlap, and the line to a box meets no box but its two ends."""
        for one, other in combinations(boxes, 2):
            half = other.height / 2
            self.assertTrue(are_apart(one, other.x, other.y - half, other.x + other.width, other.y + half))
        for box in boxes:
            parent = box.parent
            if parent is None:
                continue
            left, right = parent.x + parent.width, box.x
            self.assertLess(left, right)
            top, bottom = sorted((parent.y, box.y))
            for other in boxes:
                if other not in (parent, box):
                    self.assertTrue(are_apart(other, left, top, right, bottom))

    def test_nothing_overlaps(self):
        queries = [*example_queries(), *(query for query, _ in LABELS), HOSTILE, "abs(" * 120 + "a" + ")" * 120]
        queries.append(" + ".join(f"sum by (a) (rate(foo{{b='{n}'}}[5m]) * {n})" for n in range(20)))
        for query in queries:
            with self.subTest(query=query[:100]):
                self.look_at(drawing.layout(query))

    def test_parents_are_in_the_middle(self):
        for query in example_queries():
            for box in drawing.layout(query):
                if box.below:
                    self.assertEqual(box.y, (box.below[0].y + box.below[-1].y) / 2)

    def test_everything_is_in_the_picture(self):
        for query in [*example_queries(), HOSTILE]:
            picture = ElementTree.fromstring(drawing.svg(query))
            width, height = float(picture.get("width")), float(picture.get("height"))
            for rect in picture.iter(f"{SVG}rect"):
                x, y, w, h = (float(rect.get(name)) for name in ("x", "y", "width", "height"))
                self.assertTrue(0 <= x and x + w <= width and 0 <= y and y + h <= height, query)

    def test_labels_are_in_their_boxes(self):
        for query in ("'日本語'", "'" + "é" * 100 + "'", "'e\u0301'", "1"):
            (box,) = drawing.layout(query)
            self.assertLess(box.label_width, box.width)
        wide, narrow = (drawing.layout(query)[0] for query in ("'日本'", "'ab'"))
        self.assertGreater(wide.label_width, narrow.label_width)


class Texts(unittest.TestCase):
    def test_nothing_is_left_unescaped(self):
        picture = ElementTree.fromstring(drawing.svg(HOSTILE))
        self.assertEqual({it.tag[len(SVG) :] for it in picture.iter()}, {"svg", "path", "g", "title", "rect", "text"})
        labels = [it.text for it in picture.iter(f"{SVG}text") if it.get("class") == "label"]
        self.assertEqual(labels[3], r'"\u{fffe}<!--"')
        self.assertTrue(labels[1].startswith("foo{a=\"<script>alert('&')</script>\",b=\""))
        titles = [it.text for it in picture.iter(f"{SVG}title")]
        self.assertEqual(titles[1], "foo{a=\"<script>alert('&')</script>\",b=\"" + r'\x00\u{202e}]]>"}')

    def test_no_style_of_its_own(self):
        self.assertNotRegex(drawing.svg(HOSTILE), r" style=|<style| on[a-z]+=")

    def test_long_labels(self):
        (box,) = drawing.layout("x" * 1000)
        self.assertEqual((box.label, box.shown), ("x" * 1000, "x" * 59 + "…"))
        self.assertIn(f"<title>{'x' * 1000}</title>", drawing.svg("x" * 1000))


if __name__ == "__main__":
    unittest.main()
