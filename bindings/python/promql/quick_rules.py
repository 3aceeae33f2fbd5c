"""Rule files in order, by one pass over the events of libyaml: of most files there is nothing to tell but how many rules they have.

What is rare in a file, or wrong, is left to `rule_files`, which finds its place.
"""

from __future__ import annotations

import re
from typing import Any, Dict, Set

from .checked_queries import Budget, Document, QueryChecker
from .files import BLANKS, NO_TEXTS, Source, Unclear, counted, look_for_reader, surely
from .token_texts import is_logql
from .yaml_events import Event, events_of

LABEL = re.compile(r"[a-zA-Z_][a-zA-Z0-9_]*")
METRIC = re.compile(r"[a-zA-Z_:][a-zA-Z0-9_:]*")
DURATION = re.compile(r"(?:(\d+)y)?(?:(\d+)w)?(?:(\d+)d)?(?:(\d+)h)?(?:(\d+)m)?(?:(\d+)s)?(?:(\d+)ms)?", re.ASCII)
MILLISECONDS = (31_536_000_000, 604_800_000, 86_400_000, 3_600_000, 60_000, 1_000, 1)
# Durations of most rules.
_USUAL = frozenset(f"{number}{unit}" for number in range(1, 61) for unit in "smhd")
# The greatest whole number of rules, and of nanoseconds.
LARGEST = 2**63 - 1
MOST_DIGITS = 18
# The most characters in the braces of templates that are looked at in a file, but for plain values.
MOST_IN_TEMPLATES = 100_000
# What is a text, a list and a mapping; one without names has those of labels.
_LABELS: Dict[str, Any] = {}
_RULE: Dict[str, Any] = {**dict.fromkeys(("record", "alert", "expr", "for", "keep_firing_for")), "labels": _LABELS, "annotations": _LABELS}
_FILE = {"groups": [{"name": None, "interval": None, "rules": [_RULE]}]}
_OF_RECORD = frozenset(("record", "expr", "labels"))


class RulesInOrder(Document):
    """A rule file with which nothing is wrong. Raises Unclear where that is not sure."""

    def __init__(self, source: Source, checker: QueryChecker) -> None:
        look_for_reader()
        super().__init__(source, checker)
        surely("expr" in source.text and "\t" not in source.text)
        self._templates = Budget(MOST_IN_TEMPLATES)
        self._rules: Set[Any] = set()
        self._look_at_groups(ShapedYaml(source.text, checker.nodes_left).root)
        self.rule_count = len(self._rules)

    def summary(self) -> str:
        return counted(self.rule_count, "rule", "rules")

    def _look_at_groups(self, file: Any) -> None:
        names: Set[str] = set()
        for group in file.get("groups", ()):
            name = group.get("name")
            surely(name and name not in names and is_duration(group.get("interval", "1m")))
            names.add(name)
            for rule in group.get("rules", ()):
                self._look_at_rule(rule)
        surely(self._rules)

    def _look_at_rule(self, rule: Dict[str, Any]) -> None:
        alert, labels, query = rule.get("alert"), rule.get("labels", _LABELS), rule.get("expr", "")
        identity = str(alert or rule.get("record", "")), frozenset(labels.items())
        surely(identity not in self._rules and not is_logql(query) and self.checker.accepts(query.rstrip(BLANKS)))
        self._rules.add(identity)
        if not alert:
            surely(METRIC.fullmatch(identity[0]) and rule.keys() <= _OF_RECORD)
            return
        surely("record" not in rule and all(is_duration(rule[key]) for key in ("for", "keep_firing_for") if key in rule))
        texts = (*labels.values(), *rule.get("annotations", _LABELS).values())
        surely(not any("{{" in text and self._is_wrong(text) for text in texts))

    def _is_wrong(self, template: str) -> bool:
        from .go_templates import fault_of, size_of
        size = size_of(template)
        return size > 0 and (not self._templates.takes(size) or bool(fault_of(template)))


class ShapedYaml:
    """What a text says that has the shape of a rule file, without anchors and tags. Raises Unclear where that is not sure."""

    def __init__(self, text: str, most_nodes: int) -> None:
        self._text, self._events = text, events_of(text, most_nodes)
        try:
            # (a document begins, and there is no other one)
            next(self._events)
            self.root = self._read(next(self._events), _FILE)
            surely(next(self._events, None) is None)
        # (beyond the bound the events end before the lists and mappings do)
        except StopIteration as error:
            raise Unclear from error

    def _read(self, event: Event, shape: Any) -> Any:
        """What begins with an event that is to be a list or a mapping."""
        surely(not event[3] and not event[4])
        if event[0] == "mapping" and type(shape) is dict:
            return self._read_mapping(shape)
        surely(event[0] == "sequence" and type(shape) is list)
        items = []
        while (item := next(self._events))[0] != "end":
            items.append(self._read(item, shape[0]))
        return items

    def _read_mapping(self, shape: Dict[str, Any]) -> Dict[str, Any]:
        # (most of the time is spent here, so little is called for each key)
        found: Dict[str, Any] = {}
        events, unknown = self._events, False if shape else None
        for kind, name, _, anchor, tag, _, key_end, _ in events:
            if kind == "end":
                surely(shape or "__name__" not in found and all(map(LABEL.fullmatch, found)))
                return found
            if kind != "scalar" or name in found or anchor or tag:
                raise Unclear
            kind, value, style, anchor, tag, start, end, _ = event = next(events)
            if (wanted := shape.get(name, unknown)) is not None:
                found[name] = self._read(event, wanted)
                continue
            if kind != "scalar" or anchor or tag or not style and value in NO_TEXTS:
                raise Unclear
            found[name] = value
            if name == "expr" and shape:
                surely(self._text[key_end] == ":")
                # (each character of a query has a place, which is the same one in most files)
                if "\n" in value or self._text[start + len(style) : end - len(style)] != value:
                    from .scalars import Scalar
                    surely(Scalar(self._text, start, end, start, style, False, 0).offsets(value) is not None)
        raise Unclear


def is_duration(text: str) -> bool:
    """Whether Prometheus takes a text as the duration of a rule."""
    return text in _USUAL or 0 <= nanoseconds(text) <= LARGEST


def nanoseconds(text: str) -> int:
    """The length of a duration, or one that is too long; less than nothing for a text that is none."""
    found = DURATION.fullmatch(text)
    if not text or not found:
        return -1
    numbers = [(number or "0").lstrip("0") for number in found.groups()]
    if max(map(len, numbers)) > MOST_DIGITS:
        return LARGEST + 1
    return sum(int(number or 0) * unit for number, unit in zip(numbers, MILLISECONDS)) * 1_000_000
