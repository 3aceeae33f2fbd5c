"""The tree of tokens with the tokens of each node, typed from docs/reference/grammar.md, and the types of nodes."""

import re
from pathlib import Path
from typing import NamedTuple

LEVELS = {
    **dict.fromkeys(["or"], 1),
    **dict.fromkeys(["and", "unless"], 2),
    **dict.fromkeys(["==", "!=", "<", "<=", ">", ">="], 3),
    **dict.fromkeys(["+", "-"], 4),
    **dict.fromkeys(["*", "/", "%", "atan2"], 5),
    "^": 6,
}
NAMES = ("identifier", "metric", "operator", "aggregator", "by", "without", "offset", "start", "end", "smoothed", "anchored")


def function_types():
    """The types of the arguments and of the value of each function, by docs/reference/functions.md."""
    page = Path(__file__).resolve().parents[2] / "docs/reference/functions.md"
    types = {}
    for names, arguments, value in re.findall(r"^\| ((?:`\w+` ?)+) \| ([\w, ]+) \| -?\d+ \| (\w+) \|", page.read_text(), re.M):
        taken = [] if arguments == "none" else arguments.split(", ")
        types.update((name, (taken, value)) for name in re.findall(r"\w+", names))
    return types


FUNCTIONS = function_types()


class Leaf(NamedTuple):
    """Tokens that alone can be at fault, with a text that has this fault and no other."""

    first: int
    end: int
    question: bytes


class Node:
    def __init__(self, form, first, end, children=(), leaves=(), **parts):
        self.form, self.first, self.end = form, first, end
        self.children, self.leaves, self.parts = list(children), list(leaves), parts

    def type(self):
        """The type of the node's value."""
        if self.form in ("number", "string", "matrix"):
            return {"number": "scalar"}.get(self.form, self.form)
        if self.form in ("paren", "sign", "at", "offset", "mode"):
            return self.children[0].type()
        if self.form == "binary":
            return "scalar" if all(it.type() == "scalar" for it in self.children) else "vector"
        if self.form == "call":
            return FUNCTIONS[self.parts["name"]][1]
        return "matrix" if self.form == "subquery" else "vector"


class Parser:
    """Parses tokens that are an expression."""

    def __init__(self, tokens):
        self.tokens, self.at = tokens, 0

    def kind(self, ahead=0):
        return self.tokens[self.at + ahead].kind if self.at + ahead < len(self.tokens) else None

    def text(self, ahead=0):
        return self.tokens[self.at + ahead].text

    def take(self, *kinds):
        if self.kind() not in kinds:
            raise ValueError(f"{kinds} expected at token {self.at}")
        self.at += 1
        return self.at - 1

    def has(self, *kinds):
        if self.kind() in kinds:
            self.at += 1
            return True
        return False

    def has_sign(self):
        return self.kind() == "operator" and self.text() in (b"+", b"-")

    def all(self):
        node = self.expression(1)
        if self.at != len(self.tokens):
            raise ValueError(f"tokens are left at {self.at}")
        return node

    def expression(self, least):
        left = self.operand()
        while self.kind() == "operator":
            operator = self.text().lower().decode()
            level = LEVELS[operator]
            if level < least:
                break
            first_right = self.at = self.at + 1
            leaves = self.modifier()
            modifier = (first_right, self.at)
            right = self.expression(level if operator == "^" else level + 1)
            left = Node("binary", left.first, self.at, [left, right], leaves, modifier=modifier, operator=operator)
        return left

    def operand(self):
        first = self.at
        if self.has_sign():
            self.at += 1
            operand = self.expression(6)
            return Node("sign", first, self.at, [operand])
        node = self.atom()
        while self.kind() in ("[", "@", "offset", "smoothed", "anchored"):
            node = self.postfix(node)
        return node

    def postfix(self, base):
        first, kind = self.at, self.kind()
        self.at += 1
        form, leaves = {"@": "at", "smoothed": "mode", "anchored": "mode"}.get(kind, kind), []
        if kind == "[":
            leaves.append(self.leaf(b"a[%s]", "number", "duration"))
            form = "subquery" if self.has(":") else "matrix"
            if self.kind() != "]":
                leaves.append(self.leaf(b"a[1:%s]", "number", "duration"))
            self.take("]")
        elif kind == "offset":
            self.at += self.has_sign()
            leaves.append(self.leaf(b"a offset %s", "number", "duration"))
        elif kind == "@" and self.kind() in ("start", "end"):
            self.at += 1
            self.take("(")
            self.take(")")
        elif kind == "@":
            sign = self.text() if self.has_sign() else b""
            self.at += bool(sign)
            number = self.take("number")
            leaves.append(Leaf(number, number + 1, b"1 + %s" % self.tokens[number].text))
            leaves.append(Leaf(number - bool(sign), number + 1, b"a @ %s%s" % (sign, self.tokens[number].text)))
        return Node(form, base.first, self.at, [base], leaves, postfix=first)

    def leaf(self, question, *kinds):
        token = self.take(*kinds)
        return Leaf(token, token + 1, question % self.tokens[token].text)

    def modifier(self):
        leaves = []
        self.has("bool")
        if self.has("on", "ignoring"):
            leaves += self.labels()
            if self.has("group_left", "group_right") and self.kind() == "(":
                leaves += self.labels()
        while self.has("fill", "fill_left", "fill_right"):
            self.take("(")
            self.at += self.has_sign()
            leaves.append(self.leaf(b"%s", "number"))
            self.take(")")
        return leaves

    def labels(self):
        """Reads labels in parentheses, and returns those that are strings."""
        leaves = []
        self.take("(")
        while self.kind() != ")":
            if self.kind() == "string":
                leaves.append(self.leaf(b"%s", "string"))
            else:
                self.at += 1
            if not self.has(","):
                break
        self.take(")")
        return leaves

    def atom(self):
        first, kind = self.at, self.kind()
        if kind in ("number", "duration", "string"):
            leaf = self.leaf(b"%s", kind)
            return Node("string" if kind == "string" else "number", first, self.at, [], [leaf])
        if self.has("("):
            inner = self.expression(1)
            self.take(")")
            return Node("paren", first, self.at, [inner])
        if kind == "{":
            return self.selector()
        if kind in ("identifier", "start", "end") and self.kind(1) == "(":
            name = self.text().decode()
            self.at += 1
            arguments = self.arguments()
            unknown = [] if name in FUNCTIONS else [Leaf(first, first + 1, name.encode() + b"()")]
            return Node("call", first, self.at, arguments, unknown, name=name)
        if kind == "aggregator" and self.kind(1) in ("(", "by", "without"):
            return self.aggregation()
        self.take(*NAMES)
        self.at -= 1
        return self.selector()

    def arguments(self):
        arguments = []
        self.take("(")
        if self.kind() != ")":
            arguments.append(self.expression(1))
        while arguments and self.has(","):
            arguments.append(self.expression(1))
        self.take(")")
        return arguments

    def aggregation(self):
        first, leaves = self.at, []
        operator = self.text().lower().decode()
        self.at += 1
        if self.has("by", "without"):
            leaves = self.labels()
            arguments = self.arguments()
        else:
            arguments = self.arguments()
            if self.has("by", "without"):
                leaves = self.labels()
        return Node("aggregation", first, self.at, arguments, leaves, operator=operator)

    def selector(self):
        first, leaves = self.at, []
        if self.kind() != "{":
            self.at += 1
        if self.has("{"):
            while self.kind() != "}":
                leaves += self.matcher()
                if not self.has(",", "or"):
                    break
            self.take("}")
        return Node("selector", first, self.at, [], leaves)

    def matcher(self):
        """Reads a matcher, and returns its strings and its pattern."""
        leaves = []
        if self.kind() == "string":
            leaves.append(self.leaf(b"%s", "string"))
        else:
            self.take("identifier")
        if self.kind() in (",", "}", "or"):
            return leaves
        sign = self.text().decode()
        self.take("=", "!=", "=~", "!~")
        value = self.take("string")
        leaves.append(Leaf(value, value + 1, self.tokens[value].text))
        if sign in ("=~", "!~"):
            leaves.append(Leaf(value, value + 1, b"a{b=~%s}" % self.tokens[value].text))
        return leaves
