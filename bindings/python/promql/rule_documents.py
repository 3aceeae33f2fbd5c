"""What a YAML document is to the tools for rule files: rules, tests of them, something else that has rules in it, or none of these."""

from __future__ import annotations

from enum import Enum
from typing import Iterator, List, NamedTuple, Optional, Sequence, Set

from .scalars import Mappings, Node


class Kind(Enum):
    RULES = "rules"
    # The unit tests of promtool.
    TESTS = "tests"
    LOKI = "rules of Loki"
    GRAFANA = "alert rules of Grafana"
    # A text in an object of Kubernetes that is a file of its own.
    TEXT = "a text"
    # An `expr` in a place where no rule is known.
    UNREAD = "unread"
    # An object of Kubernetes without rules.
    OBJECT = "an object"
    WRONG = "nothing that is known"


WITH_QUERIES = (Kind.RULES, Kind.TESTS, Kind.LOKI, Kind.GRAFANA)
# Of a test, one of these says what it is.
_TEST_FIELDS = ("promql_expr_test", "alert_rule_test", "input_series")


class RuleDocument(NamedTuple):
    """A document, or an object in a list of Kubernetes."""

    kind: Kind
    # The mapping that has the `groups` or the `tests`, or is a group, and whether it is a whole document of Prometheus.
    owner: Node
    is_whole: bool
    # Why nothing is looked at in it.
    note: str = ""
    # What the mapping has: a list of groups, or of the rules of one.
    key: str = "groups"
    # The key of a text, or one that is most likely meant as `groups`.
    name: Optional[Node] = None
    # Of an object of Kubernetes.
    object_kind: str = ""

    def groups(self, mappings: Mappings) -> List[Node]:
        """The groups of rules."""
        if self.key == "rules":
            return [self.owner]
        items = mappings.value(self.owner, self.key)
        return list(items.value) if items and items.kind == "sequence" else []


# Objects of Kubernetes whose `spec` has groups, or may have none.
_RULE_KINDS = ("PrometheusRule", "VMRule", "Rules", "ClusterRules", "GlobalRules")
_NO_GROUPS = "this is no rule file: it has no `groups`"
# How the keys of texts end that are files.
_RULES_END, _BOARD_END = (".yml", ".yaml", ".rules", ".rule"), ("json",)
# Of a list so many items at most tell what it is.
_MOST_ITEMS = 100


def documents_of(root: Node, mappings: Mappings, looks_inside: bool = True) -> Iterator[RuleDocument]:
    """The documents in a document of YAML: it itself, the objects of a list of Kubernetes, or groups of rules anywhere in it."""
    todo = [root]
    seen: Set[int] = set()
    while todo:
        node = todo.pop()
        if node.is_null() or id(node) in seen:
            continue
        seen.add(id(node))
        items = mappings.value(node, "items")
        if mappings.name(node, "kind").endswith("List") and items and items.kind == "sequence":
            todo += reversed(items.value)
            continue
        document = _document_of(node, mappings)
        inner = list(_inner_documents(node, mappings)) if looks_inside and _may_have_rules(document, mappings) else []
        yield from inner
        if all(it.kind is Kind.UNREAD for it in inner):
            yield document


def _may_have_rules(document: RuleDocument, mappings: Mappings) -> bool:
    """Whether rules are to be looked for in a document that has none in their place."""
    if document.object_kind and document.kind is Kind.RULES:
        return not mappings.entry(document.owner, "groups")
    return document.kind is Kind.OBJECT or document.kind is Kind.WRONG and document.owner.kind == "mapping"


def _document_of(node: Node, mappings: Mappings) -> RuleDocument:
    if node.kind != "mapping":
        return RuleDocument(Kind.WRONG, node, True, "the document is not a mapping")
    if mappings.entry(node, "groups"):
        return RuleDocument(_kind_of_groups(node, "groups", mappings), node, True)
    kind, version = (mappings.name(node, key) for key in ("kind", "apiVersion"))
    if kind and version:
        return _object_of(node, kind, version, mappings)
    if _has_items(node, "tests", _TEST_FIELDS, mappings):
        return RuleDocument(Kind.TESTS, node, True)
    key = _misspelled_groups(node, mappings)
    if key:
        return RuleDocument(Kind.WRONG, key, True, f"{_NO_GROUPS}, but `{key.value}`", name=key)
    return RuleDocument(Kind.WRONG, node, True, _NO_GROUPS)


def _misspelled_groups(node: Node, mappings: Mappings) -> Optional[Node]:
    """The key of groups that is most likely meant as `groups`, where a mapping has one."""
    from difflib import get_close_matches
    for key, value in mappings.entries(node):
        if key.is_scalar() and _are_groups(value, mappings) and get_close_matches(str(key.value), ("groups",), cutoff=0.8):
            return key
    return None


def _object_of(node: Node, kind: str, version: str, mappings: Mappings) -> RuleDocument:
    spec = mappings.value(node, "spec")
    if spec and version.startswith("loki.") and mappings.entry(spec, "groups"):
        return RuleDocument(Kind.LOKI, spec, False)
    if spec and kind in _RULE_KINDS:
        key = None if mappings.entry(spec, "groups") else _misspelled_groups(spec, mappings)
        if key:
            return RuleDocument(Kind.WRONG, key, False, f"a `{kind}` without `groups`, but with `{key.value}`", name=key)
        return RuleDocument(Kind.RULES, spec, False, object_kind=kind)
    return RuleDocument(Kind.OBJECT, node, False, f"no rules: a `{kind}` of Kubernetes")


def _inner_documents(root: Node, mappings: Mappings) -> Iterator[RuleDocument]:
    """What has queries in a document that is no rule file, as an object of Kubernetes or the values of a chart of Helm."""
    todo, seen = [root], {id(root)}
    while todo:
        node = todo.pop()
        key = next((key for key in ("groups", "rules") if _has_rules(node, key, mappings)), "")
        if key:
            # (an alias has the same list again)
            items = id(mappings.value(node, key))
            if items not in seen:
                seen.add(items)
                yield RuleDocument(_kind_of_groups(node, key, mappings), node, False, key=key)
            continue
        if node.kind == "mapping":
            yield from _in_mapping(node, mappings)
        parts = node.value if node.kind == "sequence" else [value for _, value in node.value] if node.kind == "mapping" else []
        todo += [part for part in reversed(parts) if id(part) not in seen]
        seen.update(map(id, parts))


def _in_mapping(node: Node, mappings: Mappings) -> Iterator[RuleDocument]:
    """The texts of a mapping that are files, and a query that is not looked at."""
    query = mappings.value(node, "expr")
    if query and query.is_text():
        yield RuleDocument(Kind.UNREAD, query, False, "not looked at: an `expr` that is in no rule of a group")
    for name, value in node.value:
        if name.is_scalar() and value.is_text() and value.style:
            # (a text that is a file may have queries)
            if name.value.endswith(_RULES_END) and "groups:" in value.value or is_board(name.value) and '"expr"' in value.value:
                yield RuleDocument(Kind.TEXT, value, False, name=name)


def is_board(name: str) -> bool:
    """Whether a text is a dashboard, by its key."""
    return name.endswith(_BOARD_END)


def _has_rules(mapping: Node, key: str, mappings: Mappings) -> bool:
    """Whether a mapping has groups, or the rules of a group, as this key tells."""
    if key == "rules":
        return _has_items(mapping, key, ("expr", "data"), mappings)
    value = mappings.value(mapping, key)
    return value is not None and _are_groups(value, mappings)


def _are_groups(items: Node, mappings: Mappings) -> bool:
    if items.kind != "sequence":
        return False
    first = items.value[:_MOST_ITEMS]
    return mappings.answer("groups", items, lambda: any(_has_rules(item, "rules", mappings) for item in first))


def _kind_of_groups(owner: Node, key: str, mappings: Mappings) -> Kind:
    """Whether groups, or one, are those of Grafana, whose rules have their queries in `data`."""
    groups = RuleDocument(Kind.RULES, owner, False, key=key).groups(mappings)
    first = next((group for group in groups if mappings.entry(group, "rules")), owner)
    return Kind.GRAFANA if _has_items(first, "rules", ("data",), mappings) else Kind.RULES


def is_surely_of_rules(document: RuleDocument, mappings: Mappings) -> bool:
    """Whether a document is of rules by more than its key `groups`, which other tools have as well."""
    if document.kind is Kind.RULES and document.is_whole:
        return _has_items(document.owner, "groups", ("rules",), mappings)
    return document.kind in WITH_QUERIES or document.kind is Kind.TEXT or document.name is not None


def _has_items(mapping: Node, key: str, fields: Sequence[str], mappings: Mappings) -> bool:
    """Whether a mapping has a list under a key, and in it a mapping with one of these fields."""
    items = mappings.value(mapping, key)
    if not items or items.kind != "sequence":
        return False
    first = items.value[:_MOST_ITEMS]
    return mappings.answer("+".join(fields), items, lambda: any(mappings.entry(item, it) for item in first for it in fields))
