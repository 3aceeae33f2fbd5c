"""The requests about documents: what each is answered with."""

from __future__ import annotations

import re
from typing import Any, Callable, Dict, Iterator, List, NamedTuple, Optional, Tuple

from ..queries import Edit
from . import completion, context, hover, navigation, outline, semantic
from .documents import Document, Place, diagnostic
from .functions import Function
from .messages import CONTENT_MODIFIED, INVALID_PARAMS, ProtocolError, member, whole
from .names import Known, Use, known
from .prometheus import Prometheus
from .rules import PlacedQuery
from .semantic import TYPES
from .settings import path_of
from .work import FIX, RENAME

# The words of which all places in a query are shown, and of a text of a server so many characters.
_WORDS = ("function", "string", "regexp", "variable", "property")
_LONGEST_HELP = 500
# The kinds of code actions, whose edits are made when one is chosen.
_QUICK_FIX, _FIX_ALL = "quickfix", "source.fixAll.promql"


class Workspace:
    """The documents that are open, and what is known beside them."""

    def __init__(self, prometheus: Optional[Prometheus]) -> None:
        self.documents: Dict[str, Document] = {}
        self.prometheus = prometheus
        self.has_snippets = False
        # Whether an editor asks for the edits of a code action when it is chosen.
        self.resolves = False
        self.folders: List[str] = []
        # Whether an answer may wait for what the server of `prometheus` tells.
        self.is_patient = True

    def document(self, params: Any) -> Document:
        return self.document_of(uri_of(params))

    def document_of(self, uri: str) -> Document:
        if uri not in self.documents:
            raise ProtocolError(INVALID_PARAMS, f"not open: {uri}")
        return self.documents[uri]

    @property
    def all(self) -> List[Document]:
        return list(self.documents.values())

    def known(self, but: PlacedQuery, metric: str, label: str) -> Known:
        """The names in the open documents but for a query, those that rules record, and those of the server."""
        found = known((query.names for document in self.all for query in document.queries() if query is not but), metric)
        found.metrics.update(rule.record for document in self.all for rule in document.rules if rule.record)
        if self.prometheus:
            found.add(self.prometheus.known(metric, label))
            self.wait_for_server()
        return found

    @property
    def is_asking(self) -> bool:
        return self.prometheus is not None and self.prometheus.is_busy

    def wait_for_server(self) -> None:
        """Has the request served later, where the server was asked something and may answer soon."""
        if self.is_asking and self.is_patient:
            raise Asking()


class Asking(Exception):
    """The answer waits for what a server tells."""


class Later(NamedTuple):
    """A result that the helper makes: what it does for a document, and what is answered with what comes of it."""

    document: Document
    kind: str
    wanted: Any
    answer: Callable[[Any], Any]


class At(NamedTuple):
    """Where a request is about."""

    document: Document
    offset: int
    place: Optional[Place]

    @property
    def metric(self) -> Optional[Use]:
        return navigation.metric_at(self.document, self.offset)


def uri_of(params: Any) -> str:
    uri = member(params, "textDocument", "uri")
    if not isinstance(uri, str):
        raise ProtocolError(INVALID_PARAMS, "no `textDocument`")
    return uri


def where(workspace: Workspace, params: Any) -> At:
    document = workspace.document(params)
    offset = document.lines.offset(params.get("position"))
    return At(document, offset, document.place(offset))


def on_hover(workspace: Workspace, params: Any) -> Any:
    at = where(workspace, params)
    found = hover.hover(at.place.query.text, at.place.at) if at.place else None
    if not found or not at.place:
        return None
    text, metric = at.place.query.shown(found.text), at.metric
    if metric and workspace.prometheus:
        told = workspace.prometheus.help(metric.name)
        workspace.wait_for_server()
        # (in Markdown, as it is)
        plain = re.sub(r"([^\w\s])", r"\\\1", " ".join(told[:_LONGEST_HELP].split()))
        text += f"\n\nOn the server: {plain}" if told else ""
    for document, start, _ in navigation.records(workspace.all, metric.name) if metric else ():
        rule = next(rule for rule in document.rules if rule.record_start == start)
        for query in rule.queries[:1]:
            text += f"\n\nRecorded as\n```promql\n{query.shown(query.text)}\n```"
    place = at.document.range_in(at.place.query, found.start, found.end)
    return {"contents": {"kind": "markdown", "value": text}, "range": place}


def on_completion(workspace: Workspace, params: Any) -> Any:
    at = where(workspace, params)
    if not at.place:
        return None
    query, text = at.place.query, at.place.query.text
    found = completion.complete(text, at.place.at, lambda metric, label: workspace.known(query, metric, label))
    if found is None:
        return None
    items = [item for item in found.items if _goes_on(item.label, text[found.start : found.end])]
    # (blanks after a query are not of it, and what is written comes after them)
    is_after = found.start == found.end == len(text)
    edit_range = at.document.lines.range(at.offset, at.offset) if is_after else at.document.range_in(at.place.query, found.start, found.end)
    shown = [completion.shown(item, edit_range, workspace.has_snippets) for item in items[: completion.MOST_ITEMS]]
    return {"isIncomplete": len(items) > len(shown) or workspace.is_asking, "items": shown}


def _goes_on(label: str, word: str) -> bool:
    """Whether a label has the characters of a word in their order, which editors compare further."""
    rest = iter(label.lower())
    return all(character in rest for character in word.lower())


def on_signature_help(workspace: Workspace, params: Any) -> Any:
    at = where(workspace, params)
    found = hover.signature(at.place.query.text, at.place.at) if at.place else None
    if not found:
        return None
    function, active = found
    parameters = [{"label": span} for span in _parameter_spans(function)]
    shown = {"label": function.signature, "documentation": function.sentence, "parameters": parameters}
    return {"signatures": [shown], "activeSignature": 0, "activeParameter": active}


def _parameter_spans(function: Function) -> List[List[int]]:
    spans, at = [], len(function.name) + 1
    for parameter in function.parameters:
        spans.append([at, at + len(parameter.label)])
        at += len(parameter.label) + 2
    return spans


def on_definition(workspace: Workspace, params: Any) -> Any:
    metric = where(workspace, params).metric
    if not metric:
        return None
    return [navigation.location(*place) for place in navigation.records(workspace.all, metric.name)]


def on_references(workspace: Workspace, params: Any) -> Any:
    metric = where(workspace, params).metric
    if not metric:
        return None
    found = list(navigation.uses(workspace.all, metric.name))
    if member(params, "context", "includeDeclaration"):
        found = [*navigation.records(workspace.all, metric.name), *found]
    return [navigation.location(*place) for place in found]


def on_prepare_rename(workspace: Workspace, params: Any) -> Any:
    at = where(workspace, params)
    metric = at.metric
    if not metric:
        return None
    return {"range": at.document.lines.range(metric.start, metric.end), "placeholder": metric.name}


def on_rename(workspace: Workspace, params: Any) -> Any:
    at = where(workspace, params)
    new = params.get("newName")
    metric = at.metric
    if not metric or not isinstance(new, str):
        raise ProtocolError(INVALID_PARAMS, "there is no metric here")
    changes = navigation.rename(workspace.all, metric.name, new)
    renaming = navigation.Renaming(metric.name, new, workspace.folders, [path_of(document.uri) for document in workspace.all])
    later = Later(at.document, RENAME, renaming, lambda others: {"changes": {**others, **changes}})
    return later if workspace.folders else later.answer({})


def on_selection_range(workspace: Workspace, params: Any) -> Any:
    document = workspace.document(params)
    positions = params.get("positions")
    if not isinstance(positions, list) or len(positions) > 1_000:
        raise ProtocolError(INVALID_PARAMS, "no `positions`")
    return [_selections(document, document.lines.offset(position)) for position in positions]


def _selections(document: Document, offset: int) -> Any:
    """The ranges around a place: the smallest one, with its parent, and so on to the rule, the group, and the document."""
    place = document.place(offset)
    found: Dict[str, Any] = {"range": document.lines.range(0, len(document.text))}
    for start, end in document.parts():
        if start <= offset <= end:
            found = {"range": document.lines.range(start, end), "parent": found}
    for span in reversed(context.spans_around(place.query.text, place.at) if place else []):
        assert place
        inner = document.range_in(place.query, *span)
        if inner != found["range"]:
            found = {"range": inner, "parent": found}
    return found


def on_semantic_tokens(workspace: Workspace, params: Any) -> Any:
    document = workspace.document(params)
    start, end = document.lines.span(params["range"]) if "range" in params else (0, len(document.text))
    return {"data": semantic.encoded(document.lines, document.queries(), start, end)}


def on_document_highlight(workspace: Workspace, params: Any) -> Any:
    """The places of a metric in the document, written or read; of any other word those in the query."""
    at = where(workspace, params)
    metric = at.metric
    if metric:
        places = [(it, kind) for kind, find in ((3, navigation.records), (2, navigation.uses)) for it in find([at.document], metric.name)]
        return [{"range": at.document.lines.range(start, end), "kind": kind} for (_, start, end), kind in places]
    query, roles = (at.place.query, at.place.query.roles) if at.place else (None, ())
    word = next((it for it in roles if at.place and it.start <= at.place.at <= it.end and TYPES[it.type] in _WORDS), None)
    if not query or not word:
        return None
    text = query.text[word.start : word.end]
    same = [it for it in roles if it.type == word.type and query.text[it.start : it.end] == text]
    return [{"range": at.document.range_in(query, it.start, it.end), "kind": 1} for it in same]


def _actions(document: Document, span: Tuple[int, int], only: Any) -> Iterator[Dict[str, Any]]:
    """What may be done in a part of a document, of the kinds that are asked for."""
    fixable = [(number, it) for number, it in enumerate(document.problems) if it.is_fixable]
    for number, it in fixable if _is_asked(_QUICK_FIX, only) else ():
        if it.start <= span[1] and span[0] <= it.end:
            found = _action(document, _QUICK_FIX, f"Fix {it.code}: {it.message}", number)
            yield {**found, "diagnostics": [diagnostic(document, it)], "isPreferred": True}
    if fixable and _is_asked(_FIX_ALL, only):
        yield _action(document, _FIX_ALL, "Fix all that the linter has a fix for", -1)


def _is_asked(kind: str, only: Any) -> bool:
    return not isinstance(only, list) or any(isinstance(it, str) and f"{kind}.".startswith(f"{it}.") for it in only)


def _action(document: Document, kind: str, title: str, number: int) -> Dict[str, Any]:
    return {"title": title, "kind": kind, "data": {"uri": document.uri, "version": document.version, "number": number}}


def on_code_action(workspace: Workspace, params: Any) -> Any:
    document = workspace.document(params)
    if not document.is_told:
        raise ProtocolError(CONTENT_MODIFIED, "the document is not read yet")
    span = document.lines.span(params.get("range"))
    # (an editor that never asks for edits would do nothing)
    return list(_actions(document, span, member(params, "context", "only"))) if workspace.resolves else []


def on_resolve(workspace: Workspace, params: Any) -> Any:
    """A code action with its edit."""
    document, number = workspace.document_of(str(member(params, "data", "uri"))), whole(member(params, "data"), "number", -1)
    if member(params, "data", "version") != document.version or not document.is_told or number >= len(document.problems):
        raise ProtocolError(CONTENT_MODIFIED, "the document was changed meanwhile")
    wanted = document.problems[number] if number >= 0 else None
    return Later(document, FIX, wanted, lambda made: {**params, "edit": {"changes": {document.uri: text_edits(document, made)}}})


def text_edits(document: Document, edits: List[Edit]) -> List[Any]:
    return [{"range": document.lines.range(edit.start, edit.end), "newText": edit.text} for edit in edits]


ABOUT_PLACES: Dict[str, Callable[[Workspace, Any], Any]] = {
    "textDocument/hover": on_hover, "textDocument/completion": on_completion, "textDocument/signatureHelp": on_signature_help,
    "textDocument/definition": on_definition, "textDocument/references": on_references, "textDocument/prepareRename": on_prepare_rename,
    "textDocument/rename": on_rename, "textDocument/selectionRange": on_selection_range,
    "textDocument/documentSymbol": lambda workspace, params: outline.symbols(workspace.document(params)),
    "textDocument/foldingRange": lambda workspace, params: outline.folds(workspace.document(params)),
    "textDocument/documentHighlight": on_document_highlight, "textDocument/codeAction": on_code_action, "codeAction/resolve": on_resolve,
    "textDocument/semanticTokens/full": on_semantic_tokens, "textDocument/semanticTokens/range": on_semantic_tokens,
}
# Those that are about all documents.
ABOUT_ALL = ("textDocument/definition", "textDocument/references", "textDocument/rename")

_PROVIDED = (
    "hover definition references documentFormatting documentRangeFormatting selectionRange documentSymbol foldingRange documentHighlight"
).split()
CAPABILITIES = {
    "textDocumentSync": {"openClose": True, "change": 2},
    **{f"{name}Provider": True for name in _PROVIDED},
    "completionProvider": {"triggerCharacters": ["{", ",", "(", '"', "[", "="]},
    "signatureHelpProvider": {"triggerCharacters": ["(", ","]},
    "renameProvider": {"prepareProvider": True},
    "codeActionProvider": {"codeActionKinds": [_QUICK_FIX, _FIX_ALL], "resolveProvider": True},
    "semanticTokensProvider": {"legend": {"tokenTypes": TYPES, "tokenModifiers": []}, "full": True, "range": True},
}
