"""A query as the rules look at it: its tree, where the nodes of that are and what is in them, and the rule of a file that it is in."""

from __future__ import annotations

from functools import cached_property
from typing import Callable, Dict, FrozenSet, Hashable, Iterator, List, Mapping, NamedTuple, Optional, Sequence, Set, Tuple

import promql

from ..labels import children_of, nodes_of
from ..token_texts import Token, code_of
from .findings import Span, Tree
from .flow import LabelFlow, Labels, ValueFlow, name_of
from .records import NO_RECORDS, Records


class MatcherPlace(NamedTuple):
    """A matcher in braces, and in it the operator and the value."""

    whole: Span
    operator: Span
    value: Span


class NodePlace(NamedTuple):
    """Where a node is, without a plus before it, which leaves nothing in the tree; and its head: a name, an operator or an aggregator."""

    whole: Span
    head: Span
    # Of a selector: its braces, and what is in them by the order of the text. A name in quotes is one without an operator.
    braces: Optional[Span] = None
    matchers: Tuple[Optional[MatcherPlace], ...] = ()
    # The range in brackets.
    range: Optional[Span] = None
    # The labels after `by`, `without`, `on` and `ignoring`, and those after `group_left` and `group_right`.
    labels: Tuple[Span, ...] = ()
    group: Tuple[Span, ...] = ()
    bool: Optional[Span] = None


class Places:
    """Where the nodes of a query are, which are all of its tree, each before those below it."""

    def __init__(self, query: str, nodes: Sequence[Tree]) -> None:
        read = zip(nodes, promql.places(query), promql.parts(query))
        self._read = {id(node): (place, parts) for node, place, parts in read}
        self._found: Dict[int, NodePlace] = {}
        self._tokens = tokens = code_of(query)
        self._numbers: Dict[int, int] = {}
        # The number of the first token of an operand, by where it begins: one that is no plus.
        self._firsts: Dict[int, int] = {}
        first = len(tokens)
        for number in range(len(tokens) - 1, -1, -1):
            first = first if tokens[number].text == "+" else number
            self._numbers[tokens[number].start] = number
            self._firsts[tokens[number].start] = first

    def of(self, node: Tree) -> NodePlace:
        """The place of a node, which is found once."""
        if id(node) not in self._found:
            self._found[id(node)] = self._place(node, *self._read[id(node)])
        return self._found[id(node)]

    def _place(self, node: Tree, place: Tuple[int, int], parts: Sequence[promql.Part]) -> NodePlace:
        spans: Dict[str, List[Span]] = {}
        for kind, *span in parts:
            spans.setdefault(kind, []).append(Span(*span))
        first = self._tokens[self._firsts[place[0]]]
        whole = Span(first.start, place[1])
        opening = Span(first.start, first.end) if first.kind == "punctuation" else whole
        heads = spans.get("name") or spans.get("operator") or spans.get("range", [opening]) * (node["type"] == "subquery")
        head = heads[0] if heads else opening
        return NodePlace(
            whole, head, self._braces(node, first, "name" in spans), tuple(map(self._matcher, spans.get("matcher", ()))),
            spans["range"][0] if "range" in spans else None, tuple(spans.get("label", ())), tuple(spans.get("groupLabel", ())),
            self._span(self._numbers[head.start] + 1) if node.get("bool") else None
        )

    def _span(self, number: int) -> Span:
        return Span(self._tokens[number].start, self._tokens[number].end)

    def _braces(self, node: Tree, first: Token, has_name: bool) -> Optional[Span]:
        number = self._numbers[first.start] + has_name
        if node["type"] not in ("vectorSelector", "matrixSelector") or self._text(number) != "{":
            return None
        start = self._tokens[number].start
        while self._text(number) != "}":
            number += 1
        return Span(start, self._tokens[number].end)

    def _text(self, number: int) -> str:
        return self._tokens[number].text if number < len(self._tokens) else ""

    def _matcher(self, span: Span) -> Optional[MatcherPlace]:
        number = self._numbers[span.start]
        is_name = self._tokens[number].end == span.end
        return None if is_name else MatcherPlace(span, self._span(number + 1), self._span(number + 2))


# Of a text in a message, and what is looked at for that.
_LONGEST = 60
_LONGEST_SHOWN = 1_000
# Characters of the patterns of a query, times those of the values that each is held against.
MOST_COMPARED = 1_000_000


class RuleContext(NamedTuple):
    """The rule of a file that has the query."""

    # The name of the rule: one of both is there.
    alert: str = ""
    record: str = ""
    # How often the group is evaluated, in milliseconds, where the group says it.
    interval: Optional[int] = None
    # The labels of the query that the templates of the alert name.
    template_labels: FrozenSet[str] = frozenset()
    # The metrics that this file records in groups with an interval, and the interval.
    recorded: Mapping[str, int] = {}
    # The same with their labels; those that are recorded in a circle with that of the rule; a query before it that records the same.
    records: Records = NO_RECORDS
    circle: FrozenSet[str] = frozenset()
    same_query: Optional[str] = None
    # The labels of the alert that have the value of the query in their text, and the queries in its templates.
    value_labels: FrozenSet[str] = frozenset()
    template_queries: Tuple[str, ...] = ()

    @property
    def key(self) -> Tuple[Hashable, ...]:
        """What the rules ask for, but for what is recorded, and for the query that records the same."""
        return bool(self.alert), self.interval, self.circle, self.template_labels, self.value_labels, self.template_queries

    def twice(self, query: str) -> Optional[Tuple[str, bool, bool]]:
        """Of a rule that records what one before it does: the metric, whether this query is the same as that of the other, and whether that
        one gives a single series without labels. Nothing of any other rule."""
        if self.same_query is None:
            return None
        return self.record, self.same_query.split() == query.split(), self.records.labels_in(self.same_query).only == frozenset()


IsWritten = Callable[[str], bool]


def always(text: str) -> bool:
    return True


class SeenMatcher(NamedTuple):
    """A matcher of a selector."""

    name: str
    operator: str
    value: str
    tree: Tree


class Subject:
    """A query, and what is known of it."""

    def __init__(self, text: str, tree: Tree, context: Optional[RuleContext] = None, is_written: IsWritten = always) -> None:
        self.text = text
        self.tree = tree
        self.context = context or RuleContext()
        # Whether a text of the query is as somebody wrote it, and not what stands there for a variable.
        self.is_written = is_written
        # All nodes, each before those below it, and those of each type.
        self.nodes: List[Tree] = nodes_of(tree)
        self._by_type: Dict[str, List[Tree]] = {}
        for node in self.nodes:
            self._by_type.setdefault(node["type"], []).append(node)
        self._groups: Dict[int, List[List[SeenMatcher]]] = {}
        # Those of the matchers of a selector, by both nodes.
        self._matcher_places: Dict[int, Dict[int, Optional[MatcherPlace]]] = {}
        # What is below the nodes of a kind.
        self._below: Dict[Callable[[Tree], bool], Set[int]] = {}

    @property
    def whole(self) -> Span:
        return Span(0, len(self.text))

    @cached_property
    def _places(self) -> Places:
        return Places(self.text, self.nodes)

    @cached_property
    def differences(self) -> List[promql.Difference]:
        """What the target reads otherwise of the query, or rejects."""
        return promql.differences(self.text)

    @cached_property
    def labels(self) -> LabelFlow:
        """Which labels the series of each node may have."""
        return LabelFlow(self.context.records.labels_of)

    @cached_property
    def values(self) -> ValueFlow:
        """Between which numbers the values of each node are."""
        return ValueFlow()

    @cached_property
    def matched(self) -> List[Tuple[Tree, Labels, Labels]]:
        """Each operator between two vectors, with the labels of both."""
        flow = self.labels
        nodes = (it for it in self.of_type("binaryExpr") if not flow.is_scalar(it["lhs"]) and not flow.is_scalar(it["rhs"]))
        return [(node, flow.of(node["lhs"]), flow.of(node["rhs"])) for node in nodes]

    @cached_property
    def _parents(self) -> Dict[int, Tree]:
        return {id(child): node for node in self.nodes for child in children_of(node)}

    @property
    def features(self) -> FrozenSet[str]:
        """What rules may need: the types of nodes, `alert` in an alert, and signs of matchers."""
        signs = (sign for sign in "{~" if sign in self.text)
        return frozenset((*self._by_type, *signs, *(["alert"] if self.context.alert else [])))

    def of_type(self, type: str) -> Sequence[Tree]:
        return self._by_type.get(type, ())

    @cached_property
    def selectors(self) -> List[Tree]:
        """The selectors, those with a range among them."""
        return [*self.of_type("vectorSelector"), *self.of_type("matrixSelector")]

    def place(self, node: Tree) -> NodePlace:
        return self._places.of(node)

    def span(self, node: Tree) -> Span:
        """Where a node is."""
        return self.place(node).whole

    def head(self, node: Tree) -> Span:
        """Where the name or the operator of a node is."""
        return self.place(node).head

    def is_as_written(self, node: Tree) -> bool:
        """Whether the text of a node is as somebody wrote it."""
        if self.is_written is always:
            return True
        span = self.span(node)
        return self.is_written(self.text[span.start : span.end])

    def parent(self, node: Tree) -> Optional[Tree]:
        return self._parents.get(id(node))

    def is_below(self, node: Tree, is_meant: Callable[[Tree], bool]) -> bool:
        """Whether a node of this kind is anywhere above a node."""
        if is_meant not in self._below:
            found = self._below[is_meant] = set()
            for above in self.nodes:
                if id(above) in found or is_meant(above):
                    found.update(map(id, children_of(above)))
        return id(node) in self._below[is_meant]

    @cached_property
    def compares_patterns(self) -> bool:
        """Whether patterns are held against the values of other matchers, which they are not where these are large together."""
        steps = 0
        for node in self.selectors if "~" in self.text else ():
            for group in self.matcher_groups(node):
                lengths: Dict[str, int] = {}
                for it in group:
                    if it.operator == "=":
                        lengths.setdefault(it.name, len(it.value))
                steps += sum(len(it.value) * lengths.get(it.name, 0) for it in group if it.operator in ("=~", "!~"))
        return steps <= MOST_COMPARED

    def shown(self, node: Tree) -> str:
        """The text of a node, on one line and cut off where it is long."""
        span = self.span(node)
        text = " ".join(self.text[span.start : min(span.end, span.start + _LONGEST_SHOWN)].split())
        return text if len(text) <= _LONGEST else text[: _LONGEST - 1] + "…"

    def calls(self, *names: str) -> Iterator[Tree]:
        return (node for node in self.of_type("call") if node["func"]["name"] in names)

    def matcher_groups(self, node: Tree) -> List[List[SeenMatcher]]:
        """The matchers of a selector that all have to hold, for each group of an `or`."""
        if id(node) not in self._groups:
            seen = {id(it): SeenMatcher(it["name"], it["type"], it["value"], it) for it in _listed(node)}
            groups = ([*node["matchers"], *group] for group in node.get("or_matchers", [[]]))
            self._groups[id(node)] = [[seen[id(it)] for it in group] for group in groups]
        return self._groups[id(node)]

    def matcher_place(self, node: Tree, matcher: SeenMatcher) -> Optional[MatcherPlace]:
        """Where a matcher of a selector is; a name in quotes has no place. (Few queries have a finding for which that is asked.)"""
        if id(node) not in self._matcher_places:
            places = zip(_listed(node), self.place(node).matchers)
            self._matcher_places[id(node)] = {id(it): place for it, place in places}
        return self._matcher_places[id(node)][id(matcher.tree)]

    def matcher_span(self, node: Tree, matcher: SeenMatcher) -> Span:
        """Where a matcher of a selector is, or the selector, where it has no place."""
        place = self.matcher_place(node, matcher)
        return place.whole if place else self.span(node)

    @cached_property
    def written_matchers(self) -> List[Tuple[Tree, SeenMatcher]]:
        """The matchers of all selectors, with these, but for those whose value is not as it was written."""
        return [(node, it) for node in self.selectors for it in self.matchers(node) if self.is_written(it.value)]

    def matchers(self, node: Tree) -> List[SeenMatcher]:
        """Each matcher of a selector, once."""
        return list({id(it.tree): it for group in self.matcher_groups(node) for it in group}.values())

    def metric(self, node: Tree) -> Optional[str]:
        """The name of the metric that a selector reads, where it is one that somebody wrote."""
        name = name_of(node)
        return name if name and self.is_written(name) else None


def _listed(node: Tree) -> List[Tree]:
    """The matchers of a selector in the order of the text."""
    return [*node["matchers"], *(it for group in node.get("or_matchers", ()) for it in group)]
