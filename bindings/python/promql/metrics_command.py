"""promql-rules metrics: which metrics and labels rule files and dashboards use, and which metrics of a server nothing uses."""

from __future__ import annotations

import argparse
import json
from functools import partial
from typing import Any, Dict, FrozenSet, Iterable, Iterator, List, Optional, Set, Tuple

import promql

from .check_command import rejections
from .checked_queries import Document
from .documents import Status, Target, read_document, targets_of
from .jobs import Report, add_arguments, as_bytes, bounds_of, work_on
from .messages import in_order, left_out, of_server, skipped_queries
from .options import add_server_arguments
from .prometheus_api import ApiError, PrometheusApi, api_of
from .rule_files import accepted, recorded_in
from .terminal import visible

# What is used, by its kind: a selector names no metric, and what has variables of Grafana is not known.
METRICS, SELECTORS, LABELS, VARIABLES = _KINDS = ("metrics", "selectors", "labels", "variables")
# So many places a table names, and so wide is its first column at most.
_MOST_PLACES, _WIDEST = 3, 60
# The files and lines of what is used, by its kind and its text; and the metrics that are recorded.
Places = Dict[Tuple[str, str], Set[Tuple[str, int]]]
Uses = Tuple[Places, FrozenSet[str]]
# The metrics of a server that a selector selects, by its text, and all of them, by no text.
Selected = Optional[Dict[str, Set[str]]]


def add_parser(subparsers: Any) -> None:
    parser = subparsers.add_parser("metrics", help="list the metrics and labels that queries use", description=__doc__)
    add_arguments(parser, outputs=("json",))
    add_server_arguments(parser, "whose metrics are compared with these")
    parser.set_defaults(run=_run, command="metrics")


def _run(arguments: argparse.Namespace) -> int:
    at_end = partial(_report, api_of(arguments), arguments.output == "json")
    # (the messages go to standard error)
    arguments.output = "text"
    return work_on(targets_of(arguments.files, arguments.dashboard), _look_at_file, arguments, at_end=at_end)


def _look_at_file(arguments: argparse.Namespace, target: Target) -> Report:
    document = read_document(target, arguments.dashboard, bounds=bounds_of(arguments))
    _, said = rejections(document)
    said += [*left_out(document, arguments.verbose), *skipped_queries(document, arguments.verbose)]
    return Report(Status.FINE, b"", in_order(said), len(document.queries), facts=(_places_in(document), recorded_in(document)))


def _places_in(document: Document) -> Places:
    found: Places = {}
    for query in accepted(document):
        place, names = (document.source.name, document.source.lines.place(query.offsets[0])[0]), promql.collect(query.text)
        unnamed = [f"{{{it['matchers']}}}" for it in names["selectors"] if it["name"] is None]
        unnamed = [it for it in unnamed if not promql.collect(it)["metrics"]]
        for kind, texts in ((METRICS, names["metrics"]), (SELECTORS, unnamed), (LABELS, names["labels"])):
            for text in texts:
                shown = query.variables.put_back(text) if query.variables else text
                found.setdefault((kind if shown == text else VARIABLES, shown), set()).add(place)
    return found


def _report(api: Optional[PrometheusApi], is_json: bool, files: List[Uses]) -> Tuple[str, Report]:
    """What all files use, and what a server has of it."""
    recorded: FrozenSet[str] = frozenset().union(*(names for _, names in files))
    found: Places = {(METRICS, name): set() for name in recorded}
    for places, _ in files:
        for use, some in places.items():
            found.setdefault(use, set()).update(some)
    selected, messages = None, []
    try:
        selected = _selected(api, (text for kind, text in sorted(found) if kind == SELECTORS)) if api else None
    except ApiError as error:
        messages = [of_server(str(error))]
    made = _made(found, recorded, selected)
    text = json.dumps(made, indent=2) + "\n" if is_json else "".join(f"{visible(line)}\n" for line in _table(made))
    return "", Report(Status.FINE, as_bytes(text), messages).judged()


def _selected(api: PrometheusApi, selectors: Iterable[str]) -> Selected:
    """Asks a server, which knows what its patterns match."""
    found = {}
    for text in ("", *selectors):
        names = api.get("label/__name__/values", {"match[]": text} if text else {})
        if not isinstance(names, list) or not all(isinstance(name, str) for name in names):
            raise ApiError(f"{api.url}: an answer without names of metrics")
        found[text] = set(names)
    return found


def _made(found: Places, recorded: FrozenSet[str], selected: Selected) -> Dict[str, Any]:
    """What is printed as JSON (bindings/schema/metrics.schema.json)."""
    made: Dict[str, Any] = {kind: [] for kind in _KINDS}
    for (kind, text), places in sorted(found.items()):
        entry: Dict[str, Any] = {"name": text, "places": [{"file": file, "line": line} for file, line in sorted(places)]}
        if kind == METRICS:
            entry.update(recorded=text in recorded, onServer=text in selected[""] if selected else None)
        elif kind == SELECTORS:
            entry["selected"] = sorted(selected[text]) if selected else None
        made[kind].append(entry)
    used = [{text for (kind, text), places in found.items() if kind == METRICS and places}]
    used += [names for text, names in selected.items() if text] if selected else []
    return {**made, "unused": sorted(selected[""].difference(*used)) if selected else None}


def _table(made: Dict[str, Any]) -> Iterator[str]:
    for kind in (*_KINDS, "unused"):
        rows = [_row(it) if kind in _KINDS else (it, "", "", "") for it in made[kind] or ()]
        width, states = (max((len(row[at]) for row in rows), default=0) for at in (0, 1))
        yield from [f"{kind.upper()}: {len(rows):,}"] if rows else []
        for name, state, count, places in rows:
            yield f"  {name:<{min(width, _WIDEST)}}  {state:<{states}}  {count:>5}  {places}".rstrip()


def _row(entry: Dict[str, Any]) -> Tuple[str, str, str, str]:
    """What a table has of an entry: the name, what it is, how often it is used, and where."""
    places = [f"{it['file']}:{it['line']}" for it in entry["places"]]
    more = f" and {len(places) - _MOST_PLACES:,} more" if len(places) > _MOST_PLACES else ""
    is_missing = entry.get("onServer") is False or entry.get("selected") == []
    state = "recorded" if entry.get("recorded") else "missing" if is_missing else ""
    return entry["name"], state, str(len(places)), ", ".join(places[:_MOST_PLACES]) + more
