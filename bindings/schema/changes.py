"""Changes of a JSON form in one place, by the rules of docs/reference/json.md: those that leave no form of a query, and those that a
schema does not see (UNSEEN)."""

import re

NODES = (
    *("aggregation", "binaryExpr", "call", "matrixSelector", "numberLiteral"),
    *("parenExpr", "stringLiteral", "subquery", "unaryExpr", "vectorSelector"),
)
# The objects that members have, where they have no nodes.
PARTS = {
    "matchers": "matcher",
    "or_matchers": "matcher",
    "matching": "modifier",
    "card": "cardinality",
    "fillValues": "fillValues",
    "func": "function",
}
COMPARISONS = ("==", "!=", ">", "<", ">=", "<=")
SETS = ("and", "or", "unless")
WITH_PARAMETER = ("topk", "bottomk", "count_values", "quantile", "limitk", "limit_ratio")
NULLABLE = ("matching", "name", "param", "startOrEnd", "step", "timestamp", "lhs", "rhs")
LEFT_OUT = ("or_matchers", "rangeMode")
NUMBER = re.compile(r"NaN|-?Inf|(?!-0$)-?(0|[1-9][0-9]*)(\.[0-9]*[1-9])?")
NO_NUMBERS = ("1.50", "01", "-0", "1e5", "inf", "+1", "", "1_0", " 1", "0x1", "-NaN", ".5", "5.", "\u0661")
WRONG_WORDS = {
    ("aggregation", "op"): ("and", "SUM", "+", "rate", ""),
    ("binaryExpr", "op"): ("=~", "!~", "=", "@", "sum", "AND", ""),
    ("unaryExpr", "op"): ("+", "!", ""),
    ("matcher", "type"): ("==", "~", "<", ""),
    ("modifier", "card"): ("one-to-many", "many-to-one", "none"),
    ("matrixSelector", "rangeMode"): ("plain", ""),
    ("numberLiteral", "val"): NO_NUMBERS,
    ("fillValues", "lhs"): NO_NUMBERS,
    ("fillValues", "rhs"): NO_NUMBERS,
    ("function", "name"): ("Rate", "sum", "no_such_function", ""),
    ("function", "returnType"): ("Vector", "matrix", "string", ""),
}
WRONG_NUMBERS = {
    "offset": (-(2**63) - 1, 2**64),
    "range": (-1, 2**64),
    "step": (-1, 2**64),
    "timestamp": (-(2**63) - 1, 2**63),
    "variadic": (-2, 2, 10),
    "start": (-1, 2**64),
    "end": (-1, 2**64),
}
VALUES = {type(None): None, bool: True, int: 0.5, str: "no such word", list: [[0.5]], dict: {"no such member": 0}}

TEXT = "another text of a name, a label, a value or a string"
ALIKE = "another operator, time, mode or number of the same sort"
LITERAL = "a literal of the other kind, where its text is both"
MISSING = "a part that is missing"
ARGUMENT = "an argument of another type"
UNSEEN = (TEXT, ALIKE, LITERAL, MISSING, ARGUMENT)
# Words of the same sort, and texts that may be any.
PAIRS = (("sum", "avg"), ("topk", "bottomk"), ("+", "*"), ("==", ">"), ("and", "or"), ("start", "end"), ("smoothed", "anchored"))
ANY_TEXT = (("matcher", "name"), ("matcher", "value"), ("vectorSelector", "name"), ("matrixSelector", "name"), ("stringLiteral", "val"))
LABELS = ("grouping", "labels", "many-to-one", "one-to-many")


def objects_in(value, path=(), kind=None):
    """Yields the path of each object within a form, and its kind."""
    if isinstance(value, dict):
        yield path, kind or value["type"]
        for key, below in value.items():
            yield from objects_in(below, (*path, key), PARTS.get(key))
    elif isinstance(value, list):
        for number, below in enumerate(value):
            yield from objects_in(below, (*path, number), kind)


def object_at(form, path):
    for key in path:
        form = form[key]
    return form


def replaced(value, path, below):
    """The value with another one at this path."""
    if not path:
        return below
    copied = value.copy()
    copied[path[0]] = replaced(value[path[0]], path[1:], below)
    return copied


def changes(form):
    """Yields what each change of a form is, and the changed form."""
    for path, kind in objects_in(form):
        node = object_at(form, path)
        for change in CHANGES:
            for what, changed in change(kind, node):
                yield f"{kind}: {what}" if what not in UNSEEN else what, replaced(form, path, changed)


def changed_members(kind, node):
    """A member is dropped or added, and a node is of another kind."""
    for member in node:
        if member not in LEFT_OUT:
            yield f"without {member}", {key: value for key, value in node.items() if key != member}
    yield "a member more", {**node, "more": None}
    if kind in NODES:
        literals = ("numberLiteral", "stringLiteral")
        for other in ("", "Call", "vector", "expression", "matcher", *NODES):
            if other != kind and not (kind in literals and other in literals):
                yield f"called {other}", {**node, "type": other}


def changed_types(kind, node):
    """A member has a value of another type of JSON, or an item of its list has."""
    for member, value in node.items():
        for type_, other in VALUES.items():
            is_null = other is None and member in NULLABLE
            is_text = type_ is str and value is None and member == "name"
            if type_ is not type(value) and not is_null and not is_text:
                yield f"{type_.__name__} as {member}", {**node, member: other}
        if isinstance(value, list) and value:
            for type_, other in VALUES.items():
                if type_ is not type(value[0]):
                    yield f"{type_.__name__} in {member}", {**node, member: [*value, other]}


def changed_words(kind, node):
    for member, value in node.items():
        if isinstance(value, str):
            for word in WRONG_WORDS.get((kind, member), ()):
                yield f"{member} {word!r}", {**node, member: word}
    if node.get("startOrEnd"):
        yield "startOrEnd 'now'", {**node, "startOrEnd": "now"}


def changed_numbers(kind, node):
    for member, value in node.items():
        if isinstance(value, int) and not isinstance(value, bool):
            for number in WRONG_NUMBERS.get(member, ()):
                if number != value:
                    yield f"{member} {number}", {**node, member: number}


def changed_arguments(kind, node):
    """A call has too few arguments or too many (docs/reference/functions.md, "Number of arguments")."""
    if kind == "call":
        types, variadic, arguments = len(node["func"]["argTypes"]), node["func"]["variadic"], node["args"]
        least = types if variadic == 0 else max(types - 1, 0)
        for count in range(least):
            yield f"{count} arguments", {**node, "args": arguments[:count]}
        if variadic >= 0:
            more = [{"type": "numberLiteral", "val": "1"}] * (least + variadic + 1)
            yield "too many arguments", {**node, "args": [*arguments, *more][: least + variadic + 1]}


def broken_relations(kind, node):
    """Members that do not go together."""
    if kind == "aggregation":
        yield "a parameter that is not the operator's", {**node, "op": "sum" if node["op"] in WITH_PARAMETER else "topk"}
        if node["param"]:
            yield "without its parameter", {**node, "param": None}
    elif kind == "binaryExpr":
        yield "the matching of another sort of operator", {**node, "op": "+" if node["op"] in SETS else "and"}
        if node["op"] not in COMPARISONS:
            yield "bool with no comparison", {**node, "bool": True}
        if node["op"] in SETS or node["bool"]:
            yield "without its matching", {**node, "matching": None}
    elif kind == "function":
        yield "the types of another function", {**node, "argTypes": [*node["argTypes"], "scalar"]}
        yield "experimental as another function", {**node, "experimental": not node["experimental"]}
    elif "timestamp" in node:
        yield "two times", {**node, "startOrEnd": "end", "timestamp": 0}
        if node.get("matchers") == [] and "or_matchers" not in node:
            yield "neither a name nor matchers", {**node, "name": None}


def unseen_changes(kind, node):
    """The changes that a schema does not see."""
    for member, value in node.items():
        if isinstance(value, str) and (kind, member) in ANY_TEXT:
            yield TEXT, {**node, member: value + "x"}
        if isinstance(value, list) and member in LABELS:
            yield TEXT, {**node, member: [*value, "x"]}
        for pair in PAIRS:
            if value in pair and (kind, member) not in ANY_TEXT:
                yield ALIKE, {**node, member: pair[1 - pair.index(value)]}
        if isinstance(value, int) and not isinstance(value, bool) and kind != "function":
            yield ALIKE, {**node, member: value + 1}
        if member in LEFT_OUT and (member == "rangeMode" or node["name"] or node["matchers"]):
            yield MISSING, {key: value for key, value in node.items() if key != member}
        if value is not None and member in ("startOrEnd", "step", "timestamp") or kind == "fillValues":
            yield MISSING, {**node, member: None}
    if kind == "stringLiteral" and NUMBER.fullmatch(node["val"]) or kind == "numberLiteral":
        yield LITERAL, {**node, "type": "stringLiteral" if kind == "numberLiteral" else "numberLiteral"}
    if kind == "call" and node["args"]:
        other = "numberLiteral" if node["args"][0]["type"] == "stringLiteral" else "stringLiteral"
        yield ARGUMENT, {**node, "args": [{"type": other, "val": "1"}, *node["args"][1:]]}


CHANGES = (changed_members, changed_types, changed_words, changed_numbers, changed_arguments, broken_relations, unseen_changes)
