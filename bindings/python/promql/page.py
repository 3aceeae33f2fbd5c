"""A page to try queries in, served on this machine alone: `promql-rules serve`.

`GET /` is the page. `POST /query` takes a JSON object with the member `query`, and `width` for the characters of a line, and returns
what the page shows of that query (`describe`). Everything that a browser needs comes from the folder `static`.
"""

from __future__ import annotations

import argparse
import io
import json
import re
import socket
import socketserver
import sys
import time
from contextlib import suppress
from functools import partial
from http import HTTPStatus
from http.server import BaseHTTPRequestHandler, ThreadingHTTPServer
from pathlib import Path
from typing import Any, Dict, List, Optional, Tuple

from . import NumberTooWideError, QueryError, TooLargeError, canonical, differences, drawing, format, places
from .options import add_target, whole_number
from .prometheus_api import TimedReader
from .terminal import visible

ADDRESS = "127.0.0.1"
DEFAULT_PORT = 8017
MAX_BODY = 256 * 1024
MAX_TEXT = 512 * 1024
MAX_NODES = 250
MAX_WIDTH = 100
# How much of a longer body is read, so that a browser gets to the response.
_MAX_SKIPPED = 16 * MAX_BODY

_STATIC = Path(__file__).resolve().with_name("static")
_FILES = {
    "/": ("index.html", "text/html; charset=utf-8"),
    "/icon.svg": ("icon.svg", "image/svg+xml"),
    "/page.css": ("page.css", "text/css; charset=utf-8"),
    "/page.js": ("page.js", "text/javascript; charset=utf-8"),
}
_METHODS: Dict[str, Tuple[str, ...]] = {**{path: ("GET", "HEAD") for path in _FILES}, "/query": ("POST",)}
_HEADERS = {
    "Cache-Control": "no-store",
    "Content-Security-Policy": "default-src 'none'; script-src 'self'; style-src 'self'; connect-src 'self'; img-src 'self'; "
    "base-uri 'none'; form-action 'none'; frame-ancestors 'none'", "Cross-Origin-Resource-Policy": "same-origin",
    "Referrer-Policy": "no-referrer", "X-Content-Type-Options": "nosniff",
}
# A page elsewhere may let a name of its own stand for this machine's address, but not for these.
_LOOPBACK = re.compile(r"(?:localhost|127\.0\.0\.1|\[::1\])(?::\d{1,5})?", re.IGNORECASE)


def describe(query: str, width: int = MAX_WIDTH) -> Dict[str, Any]:
    """What the page shows of a query: its `line`, its `layout` of so many columns and its `drawing`, or an `error` with its place.

    A text is None where it is too long to show; `warning` says what the target rejects of the layout, and `note` why there is no drawing.
    """
    try:
        texts = {"line": canonical(query), "layout": format(query, width=width)}
    except QueryError as error:
        parts = [visible(part, "\t\n") for part in _parts(query, error.start, error.end)]
        return {"error": {"message": visible(error.message), "line": error.line, "column": error.column, "parts": parts}}
    shown = {name: text if len(text) <= MAX_TEXT else None for name, text in texts.items()}
    return {**shown, "warning": _warning(texts["layout"]), **_drawing(query)}


def _parts(text: str, start: int, end: int) -> List[str]:
    """A text in three parts: the second one is what a message is about."""
    return [text[:start], text[start:end], text[end:]]


def _warning(layout: str) -> Optional[Dict[str, Any]]:
    """What the target rejects first of a layout. (One that is longer than a query may be is not looked at.)"""
    with suppress(TooLargeError):
        for it in differences(layout):
            if it.is_rejected:
                line, column = layout.count("\n", 0, it.start) + 1, it.start - layout.rfind("\n", 0, it.start)
                return {"message": it.message, "line": line, "column": column, "parts": _parts(layout, it.start, it.end)}
    return None


def _drawing(query: str) -> Dict[str, Any]:
    nodes = len(places(query))
    if nodes > MAX_NODES:
        return {"drawing": None, "note": f"too large to draw: {nodes:,} nodes"}
    try:
        return {"drawing": drawing.svg(query), "note": None}
    except NumberTooWideError as error:
        return {"drawing": None, "note": f"no tree to draw: {error}"}


class _Rejection(Exception):
    """Why a request is rejected, and with which status."""

    def __init__(self, status: HTTPStatus, why: str) -> None:
        super().__init__(why)
        self.status = status


class Handler(BaseHTTPRequestHandler):
    """Responds to one request, which is to come in so many seconds, whole."""

    server_version = "promql"
    sys_version = ""
    timeout = 10

    def setup(self) -> None:
        super().setup()
        self.rfile.close()
        self.rfile = io.BufferedReader(TimedReader(self.connection, time.monotonic() + self.timeout))

    def do_GET(self) -> None:
        try:
            self._look_at_head()
            if self.path == "/query":
                self._send_json(HTTPStatus.OK, describe(*self._question()))
            else:
                name, kind = _FILES[self.path]
                self._send(HTTPStatus.OK, kind, (_STATIC / name).read_bytes())
        except _Rejection as rejection:
            self._send_json(rejection.status, {"rejected": str(rejection)})

    do_HEAD = do_POST = do_PUT = do_PATCH = do_DELETE = do_OPTIONS = do_GET

    def _look_at_head(self) -> None:
        hosts: List[str] = self.headers.get_all("Host", [])
        if len(hosts) != 1 or not _LOOPBACK.fullmatch(hosts[0]):
            raise _Rejection(HTTPStatus.MISDIRECTED_REQUEST, "the host is not this machine")
        if self.path not in _METHODS:
            raise _Rejection(HTTPStatus.NOT_FOUND, "there is nothing here")
        if self.command not in _METHODS[self.path]:
            raise _Rejection(HTTPStatus.METHOD_NOT_ALLOWED, f"the method is not {' or '.join(_METHODS[self.path])}")

    def _question(self) -> Tuple[str, int]:
        """The query of the body, and how wide it is to be laid out."""
        if self.headers.get_content_type() != "application/json":
            raise _Rejection(HTTPStatus.UNSUPPORTED_MEDIA_TYPE, "the body is not application/json")
        try:
            value = json.loads(self._body().decode())
            query = value["query"]
            query.encode()
            width = value.get("width", MAX_WIDTH)
        except (ValueError, RecursionError, TypeError, KeyError, AttributeError):
            raise _Rejection(HTTPStatus.BAD_REQUEST, "the body is not an object with a text `query`") from None
        if type(width) is not int or not 1 <= width <= MAX_WIDTH:
            raise _Rejection(HTTPStatus.BAD_REQUEST, f"the width is not a whole number from 1 to {MAX_WIDTH}")
        return str(query), width

    def _body(self) -> bytes:
        length = self.headers.get("Content-Length")
        if length is None:
            raise _Rejection(HTTPStatus.LENGTH_REQUIRED, "the length of the body is missing")
        if not re.fullmatch(r"[0-9]{1,18}", length):
            raise _Rejection(HTTPStatus.BAD_REQUEST, "the length of the body is not a number")
        try:
            body = self.rfile.read(min(int(length), _MAX_SKIPPED))
        except socket.timeout:
            raise _Rejection(HTTPStatus.REQUEST_TIMEOUT, "the body did not come in time") from None
        if int(length) > MAX_BODY:
            raise _Rejection(HTTPStatus.REQUEST_ENTITY_TOO_LARGE, f"the body has more than {MAX_BODY:,} bytes")
        return body

    def _send_json(self, status: HTTPStatus, value: Dict[str, Any]) -> None:
        self._send(status, "application/json", json.dumps(value).encode())

    def _send(self, status: HTTPStatus, kind: str, body: bytes) -> None:
        self.send_response(status)
        self.send_header("Content-Type", kind)
        self.send_header("Content-Length", str(len(body)))
        if status == HTTPStatus.METHOD_NOT_ALLOWED:
            self.send_header("Allow", ", ".join(_METHODS[self.path]))
        self.end_headers()
        if self.command != "HEAD":
            self.connection.settimeout(self.timeout)
            self.wfile.write(body)

    def end_headers(self) -> None:
        for name, value in _HEADERS.items():
            self.send_header(name, value)
        super().end_headers()

    def log_message(self, format: str, *words: object) -> None:
        """Says nothing: there is a request for each letter that is typed."""


class Server(ThreadingHTTPServer):
    request_queue_size = 64

    def server_bind(self) -> None:
        # (that of HTTPServer looks up the name of the address, perhaps in the network)
        socketserver.TCPServer.server_bind(self)
        self.server_name, self.server_port = ADDRESS, self.socket.getsockname()[1]

    def handle_error(self, request: Any, client_address: Any) -> None:
        # (a browser closes the connection where it no longer wants the response)
        if not isinstance(sys.exc_info()[1], ConnectionError):
            super().handle_error(request, client_address)


def serve(port: int = DEFAULT_PORT) -> int:
    """Serves the page until it is interrupted, on a free port for 0, and returns the status for the shell."""
    try:
        server = Server((ADDRESS, port), Handler)
    except OSError as error:
        print(f"port {port}: {error.strerror}", file=sys.stderr)
        return 1
    with server, suppress(KeyboardInterrupt):
        print(f"http://{ADDRESS}:{server.server_port}/", flush=True)
        server.serve_forever()
    return 0


def add_parser(subparsers: argparse._SubParsersAction[argparse.ArgumentParser]) -> None:
    text = "serve a page to try queries in, on this machine alone"
    parser = subparsers.add_parser("serve", help=text, description=text)
    add_target(parser)
    parser.add_argument("--port", type=partial(whole_number, most=65_535), default=DEFAULT_PORT, help="the port (%(default)s); 0 for a free one")
    parser.set_defaults(run=lambda options: serve(options.port))
