"""Rule files of Prometheus, in YAML: the `expr` of each rule of `groups`.

The reader of YAML only finds them. What is written is the text of the file, with other texts in their places.
"""

from __future__ import annotations

from array import array
from functools import partial
from importlib import import_module
from itertools import chain, islice
from typing import Callable, Dict, FrozenSet, Iterator, List, Optional, Sequence, Tuple, Union

from . import limits
from .checked_queries import NO_BOUND, Document, PlacedFile, QueryChecker
from .documents import BOARDS
from .exact_yaml import ExactYaml
from .files import BoundError, Fault, FileError, Source, Unclear, counted, look_for_reader, nested_too_deeply
from .queries import Query, SameQuery
from .quick_yaml import QuickYaml, quick_yaml
from .rule_checks import LOOKED_AT, RuleChecks, mappings_in
from .rule_documents import WITH_QUERIES, Kind, RuleDocument, documents_of, is_board, is_surely_of_rules
from .scalars import Entry, Mappings, Node, Scalar
from .token_texts import is_logql

# The parts of a rule file that are in one, by the key; in a list it is None. What is unknown in a document may have groups as well.
_PARTS = {
    ("document", "tests"): "tests", ("tests", None): "test", ("test", "promql_expr_test"): "queries", ("queries", None): "rule",
    ("document", "groups"): "groups", ("document", "rules"): "rules", ("groups", None): "group", ("group", "rules"): "rules",
    ("rules", None): "rule", ("rule", "expr"): "expr",
    # Of Grafana.
    ("rule", "data"): "data", ("data", None): "question", ("question", "model"): "model", ("model", "expr"): "expr",
}
# `namespace` is of the files that mimirtool and cortextool load.
_FIELDS = frozenset(("groups", "namespace"))
_USED_ELSEWHERE = "an alias has it in another place than `expr`"
_COMMENT_BELOW = "the comment below it is so far in that it would become a part of it"
# More rules than anyone writes: only aliases of lists that have aliases make so many.
_MOST_RULES = 1_000_000
_TOO_MANY = f"its aliases make more than {_MOST_RULES:,} rules of it"
_LOKI = "a rule file of Loki, whose queries are LogQL"
_IN_TEXT = "it is in a text of this file"
_UNREAD = "the places of its characters cannot be told: write it in another style of YAML"


class RuleFile(Document):
    """A rule file, of one document or several."""

    def __init__(self, source: Source, checker: Optional[QueryChecker] = None, has_texts: bool = True) -> None:
        look_for_reader()
        super().__init__(source, checker)
        try:
            yaml = quick_yaml(source, self.checker.nodes_left)
            self.checker.nodes_left = yaml.nodes_left
            self._parts = _Parts(source, yaml)
        except Unclear as unclear:
            # (where there is no quick reader, the other one reads all files)
            self.checker.exact_yaml = self.checker.exact_yaml if unclear.why else NO_BOUND
            self._parts = _Parts(source, ExactYaml(source, self.checker.exact_yaml, unclear))
        # The files that are texts of this one.
        self.texts: List[PlacedFile] = []
        for name, text, offsets in self._parts.texts if has_texts else ():
            self._take_text(name, Source(source.name, text, ""), offsets)
        self.mappings, self.documents, self.rule_count = self._parts.mappings, self._parts.documents, self._parts.rules
        self.queries = self._parts.queries
        self.faults = self._parts.faults
        self.notes = self._parts.notes
        self.unread = self._parts.unread
        self.is_known = any(is_surely_of_rules(document, self.mappings) for document in self.documents)
        # (a key `groups` is one of other tools as well, but not with queries)
        self.is_known |= "expr" in source.text and any(it.kind is Kind.RULES for it in self.documents)

    def _take_text(self, name: str, text: Source, offsets: Sequence[int]) -> None:
        """Reads a file that is a text of this one."""
        file: Document
        try:
            is_rules = not is_board(name)
            file = RuleFile(text, self.checker, has_texts=False) if is_rules else import_module(BOARDS).Dashboard(text, None, self.checker)
        except FileError as error:
            at, end = error.span or (0, 0)
            fault = Fault(offsets[at], offsets[end], f"in the text `{name}`: {error.reason}")
            if isinstance(error, BoundError):
                raise BoundError.at(self.source, fault) from error
            self._parts.faults.append(fault)
            return
        placed = PlacedFile(file, offsets)
        self.texts.append(placed)
        self._parts.queries += placed.queries(_IN_TEXT)
        self._parts.faults += placed.faults(file.faults)
        self._parts.unread += placed.faults(file.unread)
        self._parts.rules += file.rule_count if isinstance(file, RuleFile) else 0

    def files(self) -> List[RuleFile]:
        """This file, and those of its texts that are rule files."""
        return [self, *(it.document for it in self.texts if isinstance(it.document, RuleFile))]

    def groups(self, *kinds: Kind) -> List[Node]:
        """The mapping of each group in the documents of these kinds, once for all its aliases."""
        groups = (group for it in self.documents if it.kind in kinds for group in it.groups(self.mappings))
        return list({id(group): group for group in groups if group.kind == "mapping"}.values())

    def rules(self) -> List[Node]:
        """The mapping of each rule of Prometheus, once for all its aliases."""
        rules = (rule for group in self.groups(Kind.RULES) for rule in mappings_in(self.mappings.value(group, "rules")))
        return list({id(rule): rule for rule in rules}.values())

    def summary(self) -> str:
        parts = self._parts
        boards = sum(len(it.document.queries) for it in self.texts if not isinstance(it.document, RuleFile))
        tests = [counted(parts.tests + boards, "query", "queries")] if parts.tests + boards else []
        return ", ".join(tests if tests and not parts.rules else [counted(parts.rules, "rule", "rules"), *tests])

    def checks(self) -> Tuple[List[Fault], List[Fault]]:
        found = RuleChecks(self.mappings, self._parts.yaml.has_aliases)
        try:
            for document in (it for it in self.documents if it.kind is Kind.RULES):
                if document.is_whole:
                    found.look_at_fields(document.owner, "file", _FIELDS)
                if document.key == "rules":
                    found.look_at_rules(document.owner)
                else:
                    found.look_at_groups(document.groups(self.mappings), document.object_kind)
        except RecursionError as error:
            raise nested_too_deeply(self.source.name) from error
        for text in self.texts:
            faults, warnings = text.document.checks()
            found.faults += text.faults(faults)
            found.warnings += text.faults(warnings)
        return found.faults, found.warnings

    def same(self, text: str, same_query: SameQuery) -> bool:
        old, new = self._both(self.source._replace(text=text))
        return len(old) == len(new) and all(_same(*roots, same_query) for roots in zip(old, new))

    def _both(self, new: Source) -> Tuple[List[Node], List[Node]]:
        """The documents of this file and those of a new one, by one reader."""
        yaml = self._parts.yaml
        if isinstance(yaml, QuickYaml):
            try:
                return yaml.roots, quick_yaml(new, self.checker.bounds.max_file_nodes).roots
            except Unclear:
                yaml = ExactYaml(self.source, self.checker.exact_yaml)
        return yaml.roots, ExactYaml(new, self.checker.exact_yaml).roots


class _Parts:
    """The rules of a file, and its queries."""

    def __init__(self, source: Source, yaml: Union[QuickYaml, ExactYaml]) -> None:
        self._source = source
        self.yaml = yaml
        self.faults: List[Fault] = []
        self.unread: List[Fault] = []
        # The name of each text that is a file, the text, and the places of its characters.
        self.texts: List[Tuple[str, str, Sequence[int]]] = []
        self.rules = 0
        self.tests = 0
        # The key and the value of each `expr`, once for all its aliases.
        self._found: Dict[int, Tuple[Node, Node]] = {}
        # How many rules a node has: each node is looked at once, however many aliases it has.
        self._counts: Dict[Tuple[str, int], int] = {}
        # Why those are skipped that are of Loki, or of others.
        self._left: Dict[int, str] = {}
        self.mappings = Mappings(source.name)
        looks_inside = "expr" in source.text
        self.documents = [self._seen(document) for root in yaml.roots for document in documents_of(root, self.mappings, looks_inside)]
        if self.rules + self.tests > _MOST_RULES:
            raise FileError(f"{self._source.name}: {_TOO_MANY}")
        self.has_rules = any(document.kind in WITH_QUERIES or document.kind is Kind.TEXT for document in self.documents)
        places = [Fault(it.owner.start, it.owner.start, it.note) for it in self.documents if it.kind is Kind.OBJECT]
        self.faults += [] if self.has_rules else places
        self.notes = places if self.has_rules else []
        self.queries = list(self._read_queries())

    def _seen(self, document: RuleDocument) -> RuleDocument:
        """Looks for the queries of a document, which tell whether it is of Loki."""
        count, owner = len(self._found), document.owner
        if document.kind is Kind.WRONG:
            self._complain(owner, document.note)
        elif document.kind is Kind.TESTS:
            query = partial(self._look_at_rule, "a test of a query")
            self.tests += self._count_in(owner, "tests", "a test", self._counter_in("promql_expr_test", "a query", query))
        elif document.kind is Kind.UNREAD:
            self.unread.append(Fault(owner.start, owner.start, document.note))
        elif document.kind is Kind.TEXT and document.name:
            self._take_text(document.name, owner)
        elif document.kind is not Kind.OBJECT:
            in_rule: Callable[[Node], int] = partial(self._look_at_rule, "a rule")
            in_group = self._counter_in("rules", "a rule", self._look_at_grafana_rule if document.kind is Kind.GRAFANA else in_rule)
            is_group = document.key == "rules"
            self.rules += self._once("group", owner, in_group) if is_group else self._count_in(owner, "groups", "a group", in_group)
        found = [node for _, node in islice(reversed(self._found.values()), len(self._found) - count)]
        if document.kind is Kind.LOKI or document.kind is Kind.RULES and any(is_logql(node.value) for node in found):
            self._left.update({id(node): _LOKI for node in found})
            return document._replace(kind=Kind.LOKI)
        return document

    def _take_text(self, name: Node, text: Node) -> None:
        """Keeps a text that is a file, with the places of its characters."""
        offsets = self._scalar(name, text).offsets(text.value)
        if offsets is None:
            self.yaml.refuse()
            self._complain(text, _UNREAD)
        else:
            self.texts.append((str(name.value), text.value, offsets))

    def _look_at_grafana_rule(self, rule: Node) -> int:
        """Looks for the queries of an alert rule of Grafana."""
        self._count_in(rule, "data", "a query", self._look_at_question)
        return 1

    def _look_at_question(self, question: Node) -> int:
        """Looks at one of the questions of an alert rule, which asks a data source or computes something."""
        model = self.mappings.value(question, "model")
        entry = self._entry(model, "expr") if model else None
        if not model or not entry or not entry[1].is_text():
            return 0
        self._found.setdefault(id(entry[1]), entry)
        source = self.mappings.value(model, "datasource")
        kind = self.mappings.value(source, "type") if source else None
        if kind and kind.is_text() and "prometheus" not in kind.value:
            self._left[id(entry[1])] = f"its data source is of the type {kind.value}"
        elif is_logql(entry[1].value):
            self._left[id(entry[1])] = "it is LogQL"
        return 1

    def _look_at_rule(self, name: str, rule: Node) -> int:
        """Looks at a rule, and returns 1 where it has a query."""
        entry = self._entry(rule, "expr")
        if not entry or entry[1].is_null() or entry[1].is_plain(""):
            self._complain(rule, f"{name} without `expr`")
        elif not entry[1].is_text():
            self._complain(entry[1], "`expr` is not a text")
        else:
            self._found.setdefault(id(entry[1]), entry)
            return 1
        return 0

    def _counter_in(self, key: str, name: str, count: Callable[[Node], int]) -> Callable[[Node], int]:
        return lambda owner: self._count_in(owner, key, name, count)

    def _count_in(self, owner: Node, key: str, name: str, count: Callable[[Node], int]) -> int:
        """How many rules there are in the list that a mapping has under a key, of mappings that have so many."""
        entry = self._entry(owner, key)
        if not entry or entry[1].is_null():
            return 0
        if entry[1].kind != "sequence":
            self._complain(entry[1], f"`{key}` is not a list")
            return 0
        return self._once(key, entry[1], partial(self._count_items, name, count))

    def _count_items(self, name: str, count: Callable[[Node], int], items: Node) -> int:
        return sum(self._once(name, item, count) for item in items.value if not item.is_null() and self._is_mapping(item, name))

    def _once(self, part: str, node: Node, count: Callable[[Node], int]) -> int:
        """What is counted in a node as this part of a rule file, where it was not counted before."""
        place = (part, id(node))
        if place not in self._counts:
            self._counts[place] = count(node)
        return self._counts[place]

    def _entry(self, mapping: Node, key: str) -> Optional[Entry]:
        if mapping.kind == "mapping":
            self._once("keys", mapping, self._look_at_keys)
        return self.mappings.entry(mapping, key)

    def _look_at_keys(self, mapping: Node) -> int:
        for name in self.mappings.repeated(mapping):
            if name.value in LOOKED_AT:
                self._complain(name, f"`{name.value}` is there twice")
        return 0

    def _is_mapping(self, node: Node, name: str) -> bool:
        if node.kind != "mapping":
            self._complain(node, f"{name} is not a mapping")
        return node.kind == "mapping"

    def _complain(self, node: Node, message: str) -> None:
        self.faults.append(Fault(node.start, node.start, message))

    def _read_queries(self) -> Iterator[Query]:
        roots = self.yaml.roots if self.yaml.has_aliases else []
        others = {id(node) for root in roots for part, node in _reached(root) if part != "expr"}
        for key, node in self._found.values():
            scalar = self._scalar(key, node)
            # (a longer text is rejected as a whole)
            is_long, start = len(node.value) > limits()["max_len"], scalar.start + len(scalar.style)
            characters = range(start, start + len(node.value))
            offsets = array("L", characters) + array("L", [scalar.end]) if is_long else scalar.offsets(node.value)
            if offsets is None:
                self.yaml.refuse()
                self.faults.append(Fault(scalar.start, scalar.start, _UNREAD))
            else:
                comment_below = scalar.is_block() and scalar.has_comment_below()
                kept = _USED_ELSEWHERE if id(node) in others else _COMMENT_BELOW if comment_below else ""
                yield Query(node.value, offsets, scalar, self._left.get(id(node), ""), kept)

    def _scalar(self, key: Node, value: Node) -> Scalar:
        start, before, in_flow = self.yaml.token(key, value)
        return Scalar(self._source.text, start, value.end, before, value.style, in_flow, key.column)


def _children(part: str, node: Node) -> Iterator[Tuple[str, Node]]:
    """What is in a node, with the part of a rule file that it is. What is merged into a mapping is the same part."""
    if node.kind == "sequence":
        for item in node.value:
            yield _PARTS.get((part, None), part), item
    elif node.kind == "mapping":
        for key, value in node.value:
            yield "other", key
            name = key.value if key.kind == "scalar" else None
            is_merge = name == "<<" and key.is_merge()
            yield part if is_merge else _PARTS.get((part, name), part if part == "document" else "other"), value


def _reached(root: Node) -> Iterator[Tuple[str, Node]]:
    """Each node of a document, once for each part of a rule file that it is."""
    todo, seen = [("document", root)], set()
    while todo:
        part, node = todo.pop()
        if (part, id(node)) not in seen:
            seen.add((part, id(node)))
            yield part, node
            todo += _children(part, node)


def _same(old_root: Node, new_root: Node, same_query: SameQuery) -> bool:
    """Whether two documents have the same nodes, but for the queries, which are compared by `same_query`."""
    todo, seen = [(("document", old_root), new_root)], set()
    while todo:
        (part, old), new = todo.pop()
        if old.kind != new.kind or old.anchor != new.anchor:
            return False
        is_scalar = old.kind == "scalar"
        if is_scalar and part == "expr":
            alike = same_query(old.value, new.value) and old.is_null() == new.is_null()
        else:
            alike = old.tag == new.tag and old.style == new.style and (old.value == new.value if is_scalar else len(old.value) == len(new.value))
        if not alike:
            return False
        if not is_scalar and (part, id(old), id(new)) not in seen:
            seen.add((part, id(old), id(new)))
            todo += zip(_children(part, old), new.value if new.kind == "sequence" else chain.from_iterable(new.value))
    return True


def accepted(document: Document) -> Iterator[Query]:
    """The queries that are looked at and accepted, but for those of unit tests."""
    if isinstance(document, RuleFile) and any(it.kind is Kind.TESTS for it in document.documents):
        return iter(())
    checker = document.checker
    return (it for it in document.queries if not it.skipped and checker.admits(it.text) and not checker.error(it.text))


def recorded_in(document: Document) -> FrozenSet[str]:
    """The metrics that the rules of a file record, with those of its texts that are files."""
    files = document.files() if isinstance(document, RuleFile) else []
    names = (file.mappings.name(rule, "record") for file in files for rule in file.rules())
    return frozenset(filter(None, names))
