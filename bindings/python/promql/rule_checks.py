"""What Prometheus asks of groups and rules beside their queries: names, labels, durations, fields and templates.

The verdict is that of `promtool check rules` of Prometheus 2.42, but for what docs/guide/rule-files.md, "What differs from promtool",
lists.
"""

from __future__ import annotations

import re
from typing import Dict, FrozenSet, Iterator, List, Optional, Set, Tuple

from .checked_queries import Budget
from .files import Fault
from .go_templates import fault_of, size_of
from .quick_rules import LABEL, LARGEST, METRIC, MOST_DIGITS, MOST_IN_TEMPLATES, nanoseconds
from .scalars import Mappings, Node

# `query_offset` and `labels` of a group are of later versions than 2.42, `partial_response_strategy` is of Thanos, and what follows it
# of Mimir and Cortex.
_GROUP_FIELDS = frozenset(
    "name interval limit rules query_offset labels partial_response_strategy evaluation_delay source_tenants"
    " align_evaluation_time_on_interval remote_write".split()
)
_RULE_FIELDS = frozenset(("record", "alert", "expr", "for", "keep_firing_for", "labels", "annotations"))
# The fields of groups and of rules that an object of Kubernetes has beside these.
_OBJECT_FIELDS = {
    "VMRule": frozenset(
        "concurrency debug eval_alignment eval_delay eval_offset extra_filter_labels headers notifier_headers params tenant type"
        " update_entries_limit".split()
    )
}
# The keys about which the reader of rules complains itself where they are there twice.
LOOKED_AT = ("groups", "rules", "expr")

SURROGATE = re.compile("[\ud800-\udfff]")
_NUMBER = re.compile(
    r"[-+]?(?:[0-9][0-9_]*(?:\.[0-9_]*)?|\.[0-9][0-9_]*)(?:[eE][-+]?[0-9]+)?|[-+]?0(?:x[0-9a-fA-F_]+|o[0-7_]+|b[01_]+)"
)

# The name of a rule, and its labels.
_Identity = Tuple[str, FrozenSet[Tuple[str, str]]]


class RuleChecks:
    """What is found in the groups of a file: faults, and warnings of what Prometheus takes."""

    def __init__(self, mappings: Mappings, has_aliases: bool) -> None:
        self.faults: List[Fault] = []
        self.warnings: List[Fault] = []
        self._mappings = mappings
        self._has_aliases = has_aliases
        # Each node is looked at once as what it is, however many aliases it has.
        self._seen: Set[Tuple[str, int]] = set()
        self._fields: FrozenSet[str] = frozenset()
        self._names: Set[str] = set()
        self._rules: Set[_Identity] = set()
        self._identities: Dict[int, _Identity] = {}
        self._templates = Budget(MOST_IN_TEMPLATES)

    def look_at_groups(self, groups: List[Node], object_kind: str) -> None:
        """Looks at the groups of a file, or of an object of this kind."""
        self._names, self._rules, self._fields = set(), set(), _OBJECT_FIELDS.get(object_kind, frozenset())
        for group in (group for group in groups if group.kind == "mapping"):
            name = self._mappings.text(group, "name")
            if name and name in self._names:
                self._complain(self._place(group, "name"), f"a group `{name}` is there before")
            self._names.add(name)
            if self._is_new("group", group):
                self._look_at_group(group, name)

    def look_at_rules(self, group: Node) -> None:
        """Looks at the rules of a mapping that may be more than a group."""
        self._names, self._rules, self._fields = set(), set(), frozenset()
        self._look_at_rules(group)

    def _look_at_group(self, group: Node, name: str) -> None:
        self.look_at_fields(group, "group", _GROUP_FIELDS | self._fields)
        value = self._mappings.value(group, "name")
        if value and not value.is_scalar():
            self._complain(self._place(group, "name"), "`name` is not a text")
        elif not name:
            self._complain(self._place(group, "name"), "a group without `name`")
        for key in ("interval", "query_offset", "evaluation_delay"):
            self._duration(group, key)
        limit = self._mappings.value(group, "limit")
        if limit and not limit.is_null() and not _is_number(limit):
            self._complain(limit, "`limit` is not a number")
        self._look_at_labels(group, "labels", is_template=False)
        self._look_at_rules(group)

    def _look_at_rules(self, group: Node) -> None:
        for rule in mappings_in(self._mappings.value(group, "rules")):
            if self._is_new("rule", rule):
                self._look_at_rule(rule)
            self._look_for_same(rule)

    def _look_at_rule(self, rule: Node) -> None:
        self.look_at_fields(rule, "rule", _RULE_FIELDS | self._fields)
        record, alert = self._mappings.name(rule, "record"), self._mappings.name(rule, "alert")
        if record and alert:
            self._complain(self._place(rule, "alert"), "a rule with both `record` and `alert`")
        if not record and not alert:
            self._complain(rule, "a rule without `record` or `alert`")
        value = self._mappings.value(rule, "record")
        if value and record and not METRIC.fullmatch(record):
            self._complain(value, f"not a metric's name: `{record}`")
        for key in ("record", "alert", "expr") if self._has_aliases else ():
            self._look_for_alias(rule, key)
        for key in ("for", "keep_firing_for"):
            if self._duration(rule, key) and record:
                self._complain(self._place(rule, key), f"`{key}` is for alerts")
        annotations = self._look_at_labels(rule, "annotations", is_template=bool(alert))
        if annotations and record:
            self._complain(self._place(rule, "annotations"), "`annotations` are for alerts")
        self._look_at_labels(rule, "labels", is_template=bool(alert))

    def _look_for_alias(self, rule: Node, key: str) -> None:
        """Warns of an alias: a value that is before its key in the file."""
        entry = self._mappings.entry(rule, key)
        if entry and entry[1].start < entry[0].start:
            name = f"warning: Prometheus 2.42 takes the name of this alias, `{entry[1].anchor}`, for `{key}`"
            self.warnings.append(Fault(entry[0].start, entry[0].start, name))

    def _look_for_same(self, rule: Node) -> None:
        """Warns of a rule with the name and the labels of one before it."""
        if id(rule) not in self._identities:
            name = self._mappings.name(rule, "alert") or self._mappings.name(rule, "record")
            self._identities[id(rule)] = (name, self._mappings.labels(self._mappings.value(rule, "labels")))
        identity = self._identities[id(rule)]
        if identity not in self._rules:
            self._rules.add(identity)
        elif identity[0] and self._is_new("same", rule):
            message = "warning: a rule with this name and these labels is there before"
            self.warnings.append(Fault(rule.start, rule.start, message))

    def look_at_fields(self, mapping: Node, part: str, fields: FrozenSet[str]) -> None:
        """Complains of fields that are unknown or there twice, also in what is merged."""
        self._look_at_keys(mapping)
        for key, _ in mapping.value:
            if not key.is_scalar():
                self._complain(key, "the name of a field is not a text")
            elif key.value not in fields and not key.is_merge():
                self._complain(key, f"unknown field `{key.value}`")
        for other in self._merged(mapping):
            if self._is_new(f"merged into a {part}", other):
                self.look_at_fields(other, part, fields)

    def _merged(self, mapping: Node) -> Iterator[Node]:
        """The mappings that are merged into one; complains of what is none."""
        for other in self._mappings.merged(mapping):
            if other.kind == "mapping":
                yield other
            else:
                self._complain(mapping, "what is merged by `<<` is not a mapping")

    def _look_at_keys(self, mapping: Node) -> None:
        if self._is_new("keys", mapping):
            for key in self._mappings.repeated(mapping):
                if key.value not in LOOKED_AT:
                    self._complain(key, f"`{key.value}` is there twice")

    def _look_at_labels(self, owner: Node, name: str, is_template: bool) -> bool:
        """Looks at labels or annotations, and returns whether there are some."""
        value = self._mappings.value(owner, name)
        if not value or value.is_null():
            return False
        if value.kind != "mapping":
            self._complain(value, f"`{name}` is not a mapping")
            return False
        entries = self._mappings.entries(value)
        if self._is_new(f"{name}, {is_template}", value):
            self._look_at_keys(value)
            for part in self._merged(value):
                self._look_at_keys(part)
            for key, text in entries:
                self._look_at_label(key, text, name, is_template)
        return bool(entries)

    def _look_at_label(self, key: Node, value: Node, name: str, is_template: bool) -> None:
        one = "an annotation" if name == "annotations" else "a label"
        if not key.is_scalar() or not LABEL.fullmatch(key.value):
            self._complain(key, f"not {one}'s name" + (f": `{key.value}`" if key.is_scalar() else ""))
        elif key.value == "__name__" and name == "labels":
            self._complain(key, "`__name__` is no label of a rule")
        if not value.is_scalar():
            self._complain(value, f"{one}'s value is not a text")
        elif not value.value.isascii() and SURROGATE.search(value.value):
            self._complain(value, "half of a surrogate pair")
        elif is_template:
            self._look_at_template(value)

    def _look_at_template(self, value: Node) -> None:
        size, was_left = size_of(value.value), self._templates.takes(0)
        if self._templates.takes(size):
            fault = fault_of(value.value) if size else ""
            if fault:
                self._complain(value, f"not a template: {fault}")
        elif was_left:
            most = f"{self._templates.most:,} characters in braces"
            self._complain(value, f"not looked at from here on: the templates of the file have more than {most}")

    def _duration(self, owner: Node, key: str) -> int:
        """The nanoseconds of a duration; 0 for none, and for what is no duration, of which it complains."""
        value = self._mappings.value(owner, key)
        if not value or value.is_null():
            return 0
        text = value.value if value.is_scalar() else ""
        length = 0 if text == "0" else nanoseconds(text)
        if length < 0:
            self._complain(value if text else self._place(owner, key), f"`{key}` is not a duration")
            return 0
        if length > LARGEST:
            self._complain(value, f"`{key}` is longer than 292 years")
        return length

    def _place(self, owner: Node, key: str) -> Node:
        """Where to complain about a field: at its key, or at what should have it."""
        entry = self._mappings.entry(owner, key)
        return entry[0] if entry else owner

    def _is_new(self, part: str, node: Node) -> bool:
        place = (part, id(node))
        is_new = place not in self._seen
        self._seen.add(place)
        return is_new

    def _complain(self, node: Node, message: str) -> None:
        end = node.end if node.is_scalar() and not node.anchor and node.style not in ("|", ">") else node.start
        self.faults.append(Fault(node.start, end, message))


def mappings_in(node: Optional[Node]) -> List[Node]:
    """The mappings of a list."""
    return [item for item in node.value if item.kind == "mapping"] if node and node.kind == "sequence" else []


def _is_number(node: Node) -> bool:
    """Whether Prometheus reads a whole number: it takes one with a fraction, and leaves that out."""
    if not node.is_scalar() or node.style or not _NUMBER.fullmatch(node.value):
        return False
    text = node.value.replace("_", "")
    try:
        if text.lstrip("+-")[:2] in ("0x", "0o", "0b"):
            return -LARGEST - 1 <= int(text, 0) <= LARGEST
        if text.lstrip("+-").isdecimal() and len(text) <= MOST_DIGITS + 2:
            return int(text) <= LARGEST
        return float(text) <= LARGEST
    except ValueError:
        return False
