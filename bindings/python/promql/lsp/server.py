"""The server: reads messages, and answers each in its turn. What takes long is done by another process meanwhile."""

from __future__ import annotations

import queue
import sys
import threading
import time
import traceback
from itertools import count
from typing import Any, BinaryIO, Callable, Dict, List, NamedTuple, Optional, Set, Tuple, Union

import promql

from ..files import FileError
from ..queries import Edit
from .documents import TOO_LARGE, Document, diagnostic, query_problems
from .features import ABOUT_ALL, ABOUT_PLACES, CAPABILITIES, Asking, Later, Workspace, text_edits, uri_of, where
from .findings import ERROR, WARNING, Problem
from .layout import LeftError, lines_edits, node_edits, query_edits
from .messages import CONTENT_MODIFIED, INTERNAL_ERROR, INVALID_PARAMS, INVALID_REQUEST, METHOD_NOT_FOUND
from .messages import NOT_INITIALIZED, REQUEST_CANCELLED, REQUEST_FAILED, BrokenStream, Message
from .messages import ProtocolError, decoded, member, read_body, write_message
from .prometheus import Prometheus
from .settings import Settings, path_of
from .work import FORMAT, READ, Done, Helper, Job

# A rule file is read again when nothing was written in it for so many seconds.
PAUSE = 0.08
# A request about a text that is not read yet waits so many seconds for that.
PATIENCE = 2.0
# One for which a Prometheus is asked waits so many seconds for that.
_PATIENCE_WITH_SERVER = 0.3
_MOST_WAITING = 1_000
_CODE_ACTION = "textDocument/codeAction"
# What is answered at once, where the query is known of which the rest of the file is not read.
_WHILE_TYPING = ("textDocument/completion", "textDocument/signatureHelp")
_FORMATTINGS = ("textDocument/formatting", "textDocument/rangeFormatting")


class End:
    """There are no more messages."""


class Waiting(NamedTuple):
    """A request that waits for documents to be read, or for what a Prometheus tells."""

    message: Message
    until: float
    is_for_server: bool = False


class Asked(NamedTuple):
    """What a job of the helper is for: a version of a document, and for a request its identity."""

    document: Document
    text: str
    request: Optional[Union[int, str]] = None
    # What is answered with what comes of it.
    answer: Callable[[Any], Any] = lambda made: made
    # Whether all of the document is to be laid out.
    is_whole: bool = False


class Server:
    def __init__(
        self, source: BinaryIO, target: BinaryIO, prometheus: Optional[Prometheus] = None, settings: Settings = Settings()
    ) -> None:
        self._settings = settings
        self._source = source
        self._target = target
        self._events: "queue.Queue[Any]" = queue.Queue(_MOST_WAITING)
        self._helper = Helper(self._events.put)
        self._workspace = Workspace(prometheus)
        if prometheus:
            # (a message that nobody handles, after which those that wait are looked at)
            prometheus.report = lambda: self._events.put({"method": "$/told"})
        self._reader = threading.Thread(target=self._read, daemon=True)
        self._numbers = count(1)
        self._is_initialized = False
        self._is_shut_down = False
        self._cancelled: Set[Union[int, str]] = set()
        self._waiting: List[Waiting] = []
        # The rule files that are to be read, and since when; jobs that wait for the helper; and the one that it does.
        self._unread: Dict[str, float] = {}
        self._jobs: List[Tuple[Job, Asked]] = []
        self._asked: Dict[int, Asked] = {}

    def run(self) -> int:
        """Serves till the end, and returns the status to end with."""
        self._reader.start()
        try:
            while True:
                try:
                    event = self._events.get(timeout=self._rest())
                except queue.Empty:
                    event = None
                if isinstance(event, End):
                    return 1
                if isinstance(event, Done):
                    self._finish(event)
                elif event is not None and event.get("method") == "exit":
                    return 0 if self._is_shut_down else 1
                elif event is not None:
                    self._serve(event)
                self._look_around()
        except OSError:
            # (nobody reads what is written)
            return 1
        finally:
            self._helper.close()

    @property
    def is_reading(self) -> bool:
        """Whether a thread still waits for what is to be read."""
        self._reader.join(0.1)
        return self._reader.is_alive()

    def _read(self) -> None:
        """Reads messages, in a thread of its own."""
        while True:
            try:
                body = read_body(self._source)
                if body is None:
                    break
                message = decoded(body)
                if message.get("method") == "$/cancelRequest":
                    self._cancelled.add(_cancelled_id(message))
                self._events.put(message)
                if message.get("method") == "exit":
                    return
            except ProtocolError as error:
                self._events.put({"broken": error})
            except (BrokenStream, OSError, ValueError) as error:
                print(f"promql-rules lsp: {error}", file=sys.stderr)
                break
        self._events.put(End())

    # ---- messages

    def _serve(self, message: Message) -> None:
        if "broken" in message:
            self._refuse(None, message["broken"])
            return
        method, request = message.get("method"), message.get("id")
        if not isinstance(method, str):
            # (an answer is none of ours, and anything else is no message)
            if "result" not in message and "error" not in message:
                self._refuse(None, ProtocolError(INVALID_REQUEST, "the message has no method"))
            return
        if "id" not in message:
            self._take(method, message.get("params"))
        elif not isinstance(request, (int, str)):
            self._refuse(None, ProtocolError(INVALID_REQUEST, "the `id` is neither a number nor a text"))
        elif request in self._cancelled:
            self._cancelled.discard(request)
            self._refuse(request, ProtocolError(REQUEST_CANCELLED, "cancelled"))
        elif self._waits(message):
            self._waiting.append(Waiting(message, time.monotonic() + PATIENCE))
        else:
            self._answer(request, method, message.get("params"))

    def _take(self, method: str, params: Any) -> None:
        """Does what a notification says. There is nobody to tell where it cannot be done."""
        handlers: Dict[str, Callable[[Any], None]] = {
            "textDocument/didOpen": self._open, "textDocument/didChange": self._change, "textDocument/didClose": self._close,
            "$/cancelRequest": self._cancel,
        }
        handler = handlers.get(method)
        if handler and (self._is_initialized or method == "$/cancelRequest"):
            try:
                handler(params)
            except ProtocolError as error:
                print(f"promql-rules lsp: {method}: {error}", file=sys.stderr)
            except OSError:
                raise
            except Exception:
                traceback.print_exc()

    def _answer(self, request: Union[int, str], method: str, params: Any) -> None:
        try:
            result = self._result(request, method, params)
        except Asking:
            message = {"id": request, "method": method, "params": params}
            self._waiting.append(Waiting(message, time.monotonic() + _PATIENCE_WITH_SERVER, True))
        except ProtocolError as error:
            self._refuse(request, error)
        except OSError:
            raise
        except Exception as error:
            traceback.print_exc()
            self._refuse(request, ProtocolError(INTERNAL_ERROR, f"{type(error).__name__}"))
        else:
            if not isinstance(result, End):
                self._write({"id": request, "result": result})

    def _result(self, request: Union[int, str], method: str, params: Any) -> Any:
        """The result of a request; End where it comes later."""
        if self._is_shut_down:
            raise ProtocolError(INVALID_REQUEST, "the server was shut down")
        if method == "initialize":
            return self._initialize(params)
        if not self._is_initialized:
            raise ProtocolError(NOT_INITIALIZED, "the server is not initialized")
        if method == "shutdown":
            self._is_shut_down = True
            return None
        if method in _FORMATTINGS:
            return self._format(request, params, has_range=method.endswith("rangeFormatting"))
        if method not in ABOUT_PLACES:
            raise ProtocolError(METHOD_NOT_FOUND, f"unknown method: {method}")
        result = ABOUT_PLACES[method](self._workspace, params)
        return self._ask_helper(request, result) if isinstance(result, Later) else result

    def _initialize(self, params: Any) -> Any:
        if self._is_initialized:
            raise ProtocolError(INVALID_REQUEST, "the server is initialized")
        self._is_initialized = True
        at = ("capabilities", "textDocument")
        self._workspace.has_snippets = member(params, *at, "completion", "completionItem", "snippetSupport") is True
        properties = member(params, *at, "codeAction", "resolveSupport", "properties")
        self._workspace.resolves = isinstance(properties, list) and "edit" in properties
        folders = member(params, "workspaceFolders")
        uris = [member(it, "uri") for it in folders] if isinstance(folders, list) else [member(params, "rootUri")]
        self._workspace.folders = [path for path in (path_of(uri) for uri in uris if isinstance(uri, str)) if path]
        self._settings = self._settings.with_options(params.get("initializationOptions") if isinstance(params, dict) else None)
        if self._workspace.prometheus:
            self._workspace.prometheus.known()
        return {"capabilities": CAPABILITIES, "serverInfo": {"name": "promql", "version": promql.__version__}}

    def _refuse(self, request: Optional[Union[int, str]], error: ProtocolError) -> None:
        self._write({"id": request, "error": {"code": error.code, "message": str(error)}})

    def _write(self, message: Message) -> None:
        write_message(self._target, message)

    # ---- documents

    def _open(self, params: Any) -> None:
        uri, item = uri_of(params), params["textDocument"]
        text, language = item.get("text"), item.get("languageId")
        if not isinstance(text, str):
            raise ProtocolError(INVALID_PARAMS, "no `text`")
        self._drop(uri)
        document = Document(uri, language if isinstance(language, str) else "", _version(item), text)
        self._workspace.documents[uri] = document
        document.settings = self._settings.for_file(uri)
        self._look_at(document, at_once=True)

    def _change(self, params: Any) -> None:
        document = self._workspace.document(params)
        changes = params.get("contentChanges")
        for change in changes if isinstance(changes, list) else ():
            document.change(change)
        document.version = _version(params["textDocument"])
        self._look_at(document, at_once=False)

    def _close(self, params: Any) -> None:
        uri = uri_of(params)
        if self._drop(uri):
            self._publish(uri, None, [])

    def _drop(self, uri: str) -> bool:
        self._unread.pop(uri, None)
        return self._workspace.documents.pop(uri, None) is not None

    def _look_at(self, document: Document, at_once: bool) -> None:
        """Tells what is wrong with a document, or sees to it that it is read."""
        self._unread.pop(document.uri, None)
        if document.is_large:
            self._show(document, [TOO_LARGE])
        elif document.is_rule_file:
            self._unread[document.uri] = time.monotonic() + (0 if at_once else PAUSE)
        else:
            self._show(document, query_problems(document.text, document.settings))

    def _show(self, document: Document, problems: List[Problem]) -> None:
        settings = document.settings
        faults = [Problem(0, 0, WARNING, settings.fault)] if settings.fault else []
        document.problems, document.is_told = faults + ([] if settings.is_left_out else problems), True
        self._publish(document.uri, document.version, [diagnostic(document, it) for it in document.problems])

    def _publish(self, uri: str, version: Optional[int], found: List[Any]) -> None:
        params: Dict[str, Any] = {"uri": uri, "diagnostics": found}
        if version is not None:
            params["version"] = version
        self._write({"method": "textDocument/publishDiagnostics", "params": params})

    # ---- layout

    def _format(self, request: Union[int, str], params: Any, has_range: bool) -> Any:
        document = self._workspace.document(params)
        span = document.lines.span(params.get("range")) if has_range else None
        if document.is_large:
            raise ProtocolError(REQUEST_FAILED, TOO_LARGE.message)
        if document.is_rule_file:
            edits = self._few_edits(document, span)
            later = Later(document, FORMAT, span, lambda made: text_edits(document, made))
            return self._ask_helper(request, later, span is None) if edits is None else text_edits(document, edits)
        try:
            width = document.settings.width
            edits = node_edits(document.text, span, width) if span else query_edits(document.text, width)
        except (LeftError, ValueError) as error:
            raise ProtocolError(REQUEST_FAILED, str(error)) from error
        return text_edits(document, edits)

    def _ask_helper(self, request: Union[int, str], later: Later, is_whole: bool = False) -> End:
        document = later.document
        kinds = document.is_json, not document.is_rule_file
        job = Job(next(self._numbers), later.kind, document.text, document.settings, later.wanted, *kinds)
        self._jobs.append((job, Asked(document, document.text, request, later.answer, is_whole)))
        return End()

    def _few_edits(self, document: Document, span: Optional[Tuple[int, int]]) -> Optional[List[Edit]]:
        """The edits of few rules, which are made at once."""
        if not document.is_read or document.is_json:
            return None
        try:
            if span:
                return lines_edits(document.text, document.rules, span, document.settings)
            return document.layouts.edits(document.text, document.rules, document.settings)
        except (LeftError, FileError, ValueError):
            # (told by the helper)
            return None

    # ---- jobs of the helper

    def _finish(self, done: Done) -> None:
        self._helper.done()
        asked = self._asked.pop(done.number, None)
        if not asked:
            return
        document = asked.document
        is_current = document.text == asked.text and self._workspace.documents.get(document.uri) is document
        if asked.request is not None:
            self._finish_request(asked.request, done, asked.answer, is_current)
            if asked.is_whole and is_current and document.is_read and done.result is not None:
                document.layouts.learn(document.text, document.rules, done.result)
        elif is_current:
            rules, problems, groups = done.result if done.result else (None, [Problem(0, 0, ERROR, done.failure)], [])
            document.settle(rules, groups)
            self._show(document, problems)

    def _finish_request(self, request: Union[int, str], done: Done, answer: Callable[[Any], Any], is_current: bool) -> None:
        if request in self._cancelled:
            self._cancelled.discard(request)
            self._refuse(request, ProtocolError(REQUEST_CANCELLED, "cancelled"))
        elif not is_current:
            self._refuse(request, ProtocolError(CONTENT_MODIFIED, "the document was changed meanwhile"))
        elif done.result is None:
            self._refuse(request, ProtocolError(REQUEST_FAILED, done.failure))
        else:
            self._write({"id": request, "result": answer(done.result)})

    def _look_around(self) -> None:
        """Gives the helper its next job, ends one that takes too long, and serves what waited long enough."""
        running = self._asked.get(self._helper.job.number) if self._helper.job else None
        is_wanted = running is not None and (running.request is not None or running.document.text == running.text)
        late = self._helper.end_late(is_wanted)
        if late:
            self._finish(late)
        if not self._helper.job:
            self._begin_job()
        now = time.monotonic()
        is_asking = self._workspace.is_asking
        ready = [it for it in self._waiting if it.until <= now or not (is_asking if it.is_for_server else self._waits(it.message))]
        self._waiting = [it for it in self._waiting if it not in ready]
        for it in ready:
            self._workspace.is_patient = not it.is_for_server
            self._answer(it.message["id"], it.message["method"], it.message.get("params"))
        self._workspace.is_patient = True

    def _begin_job(self) -> None:
        if self._jobs:
            job, asked = self._jobs.pop(0)
        else:
            now = time.monotonic()
            is_waited_for = any(not it.is_for_server for it in self._waiting)
            uri = next((uri for uri, since in self._unread.items() if since <= now or is_waited_for), None)
            document = self._workspace.documents.get(uri) if uri is not None else None
            if uri is None or not document:
                return
            del self._unread[uri]
            document.settings = self._settings.for_file(uri)
            job = Job(next(self._numbers), READ, document.text, document.settings, is_json=document.is_json)
            asked = Asked(document, document.text)
        self._asked[job.number] = asked
        self._helper.submit(job)

    def _rest(self) -> Optional[float]:
        """How long there is nothing to do but wait for a message."""
        now = time.monotonic()
        times = [it.until - now for it in self._waiting]
        if self._helper.job:
            times.append(0.25)
        elif self._jobs:
            times.append(0.0)
        elif self._unread:
            times.append(min(self._unread.values()) - now)
        return max(min(times), 0.0) if times else None

    def _waits(self, message: Message) -> bool:
        """Whether a request has to wait for a document that is not read as it is."""
        method = message.get("method")
        if method not in ABOUT_PLACES:
            return False
        try:
            documents = self._workspace.all if method in ABOUT_ALL else [self._workspace.document(message.get("params"))]
            if method in _WHILE_TYPING and documents[0].rules and where(self._workspace, message.get("params")).place:
                return False
        except ProtocolError:
            return False
        return not all(document.is_told if method == _CODE_ACTION else document.is_settled for document in documents)

    def _cancel(self, params: Any) -> None:
        request = _cancelled_id({"params": params})
        waiting = [it for it in self._waiting if it.message.get("id") == request]
        jobs = [(job, asked) for job, asked in self._jobs if asked.request == request]
        self._waiting = [it for it in self._waiting if it not in waiting]
        self._jobs = [it for it in self._jobs if it not in jobs]
        if waiting or jobs:
            self._refuse(request, ProtocolError(REQUEST_CANCELLED, "cancelled"))
        if not any(asked.request == request for asked in self._asked.values()):
            self._cancelled.discard(request)


def _cancelled_id(message: Message) -> Union[int, str]:
    request = member(message, "params", "id")
    return request if isinstance(request, (int, str)) else ""


def _version(holder: Any) -> int:
    version = member(holder, "version")
    return version if isinstance(version, int) else 0
