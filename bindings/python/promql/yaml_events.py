"""The events of libyaml for a text in which nothing is unusual: told by the extension (_native_yaml.c) or, where it finds no libyaml, by
PyYAML, which may have one of its own."""

from __future__ import annotations

import re
from contextlib import suppress
from functools import lru_cache
from importlib import import_module
from typing import Any, Iterator, Tuple

from ._calls import calls
from .files import Unclear, is_usual

# What libyaml, which reads YAML 1.1, may take otherwise: the line ends of Unicode, and what is not printed; directives, ends of documents,
# and a comment at once after the sign of a block.
_UNUSUAL = "(?m)[\0-\b\v\f\x0e-\x1f\x7f-\x9f\u2028\u2029\ud800-\udfff\ufeff\ufffe\uffff]" r"|(?:^|\r)(?:%|\.\.\.)|[|>][-+0-9]*#"
# Where a text may begin with a directive: it says what is so without it.
_DIRECTIVE = r"%YAML 1\.2 *(?:\n|\r\n?)(?=--- *[\n\r])"
# How deep lists and mappings may be nested: libyaml takes a time that grows with the square of that.
MOST_LEVELS = 100
# What `read_events` of _native.h says: the kind, the text, the style, the anchor and the tag, the start, the end and the column.
Event = Tuple[str, str, str, str, str, int, int, int]
# The kinds by the classes of PyYAML. Other events have no meaning here.
_KINDS = {"ScalarEvent": "scalar", "AliasEvent": "alias", "DocumentStartEvent": "document"}
_KINDS.update(MappingStartEvent="mapping", SequenceStartEvent="sequence", MappingEndEvent="end", SequenceEndEvent="end")


def events_of(text: str, most_nodes: int) -> Iterator[Event]:
    """The events of a text, up to the first node beyond so many."""
    read = _reader()
    if not read:
        raise Unclear(0, "")
    if not is_usual(text):
        # (these patterns take long to compile, and most texts are usual)
        directive = re.match(_DIRECTIVE, text)
        if unusual := re.compile(_UNUSUAL).search(text, directive.end() if directive else 0):
            raise Unclear(unusual.start())
    return iter(read(text, most_nodes, MOST_LEVELS))


@lru_cache(maxsize=None)
def _reader() -> Any:
    """What calls libyaml, or nothing where there is none."""
    events = getattr(calls, "yaml_events", None)
    if events and events("", 0, 0) is not None:
        return events
    with suppress(ImportError):
        return hasattr(import_module("yaml"), "CSafeLoader") and _by_pyyaml
    return None


def _by_pyyaml(text: str, most: int, levels: int) -> Iterator[Event]:
    yaml: Any = import_module("yaml")
    reader = yaml.CSafeLoader(text)
    try:
        while most >= 0 and (event := reader.get_event()):
            kind, start, has = _KINDS.get(type(event).__name__), event.start_mark, vars(event).get
            if kind:
                most -= kind not in ("document", "end")
                style, anchor, tag = "{" if has("flow_style") else has("style"), has("anchor"), has("tag")
                yield kind, has("value", ""), style or "", anchor or "", tag or "", start.index, event.end_mark.index, start.column
    except (yaml.YAMLError, ValueError, OverflowError) as error:
        at = getattr(getattr(error, "problem_mark", None), "index", 0)
        yield "error", str(getattr(error, "problem", error)), "", "", "", at, at, 0
    finally:
        reader.dispose()
