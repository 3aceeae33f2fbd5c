"""Asks the HTTP API of a Prometheus, within bounds of requests, of time, and of the bytes of an answer (docs/guide/live.md)."""

from __future__ import annotations

import argparse
import base64
import io
import json
import os
import socket
import ssl
import time
from http.client import HTTPConnection, HTTPException, HTTPResponse, HTTPSConnection
from types import SimpleNamespace
from typing import Any, Dict, Mapping, Optional, Sequence, Union
from urllib.parse import unquote, urlencode, urlsplit

from .files import FileError, read_source
from .options import ACCESS, PAIRS, ApiBounds
from .terminal import visible

# Parameters that are longer together go into the body of a request; of what a server says so many characters are shown.
_LONGEST_QUERY, _LONGEST_SAID = 4_000, 200


class ApiError(Exception):
    """Why a server tells nothing. The text has its URL, without a user and a password."""


class RefusedError(ApiError):
    """The server rejects this request, or gives it up. Another one may be answered."""


class PrometheusApi:
    """A server at `http://HOST:PORT/PATH`. It is asked directly, by no proxy of the environment, and no redirect is followed. It is told
    who asks by `NAME:PASSWORD`, which may also be in the URL, or by a token."""

    def __init__(
        self, url: str, bounds: ApiBounds = ApiBounds(), secret: str = "", certificates: Optional[ssl.SSLContext] = None
    ) -> None:
        try:
            parts = urlsplit(url)
            self.host, self._port = parts.hostname or "", parts.port
        except ValueError:
            parts, self.host = urlsplit(""), ""
        if not self.host or parts.scheme not in ("http", "https") or parts.query or parts.fragment:
            raise ApiError(f"not the URL of a server, `http://HOST:PORT`: {visible(url.rpartition('@')[2])}")
        self._is_secure, self._path = parts.scheme == "https", parts.path.rstrip("/")
        if certificates and not self._is_secure:
            raise ApiError("certificates are for the URL of a server with `https`")
        self._certificates = certificates
        # As it is shown.
        self.url = visible(f"{parts.scheme}://{parts.netloc.rpartition('@')[2]}{self._path}")
        if parts.username is not None and not secret:
            secret = f"{unquote(parts.username)}:{unquote(parts.password or '')}"
        known = base64.b64encode(secret.encode("utf-8", "surrogateescape")).decode()
        known = f"Basic {known}" if ":" in secret else f"Bearer {secret}"
        self._headers = {"Accept": "application/json", **({"Authorization": known} if secret else {})}
        self._bounds = bounds
        self._requests, self._end = 0, 0.0
        # Why nothing is asked any more.
        self._error = ""

    def number(self, query: str) -> int:
        """The only value of a query, or 0 where it gives no series. Raises ApiError."""
        data = self.get("query", {"query": query})
        try:
            return int(float(data["result"][0]["value"][1])) if data["result"] else 0
        except (LookupError, TypeError, ValueError, OverflowError):
            self._error = "an answer without the value of a query"
        raise ApiError(f"{self.url}: {self._error}")

    def get(self, path: str, parameters: Mapping[str, Union[str, Sequence[str]]] = {}) -> Any:
        """The `data` that the server has at `/api/v1/PATH` for these parameters. Raises ApiError; after one that is no RefusedError the
        server is not asked any more."""
        now, bounds = time.monotonic(), self._bounds
        self._end = self._end or now + bounds.server_timeout
        if self._requests >= bounds.max_requests:
            self._error = self._error or f"more than {bounds.max_requests:,} requests (--max-requests)"
        elif now >= self._end:
            self._error = self._error or f"the requests take more than {bounds.server_timeout:g} s (--server-timeout)"
        self._requests, end = self._requests + 1, min(self._end, now + bounds.request_timeout)
        try:
            if not self._error:
                return self._asked(f"{self._path}/api/v1/{path}", urlencode(parameters, doseq=True), end)
        except socket.timeout:
            self._error = f"no answer within {end - now:.1f} s (--request-timeout)"
        except OSError as error:
            self._error = visible(error.strerror or str(error))
        except (HTTPException, UnicodeError) as error:
            self._error = f"no answer in HTTP: {_said(str(error) or type(error).__name__)}"
        except ValueError as error:
            self._error = str(error)
        raise ApiError(f"{self.url}: {self._error}")

    def _asked(self, path: str, parameters: str, end: float) -> Any:
        """What the server answers until this time."""
        body = parameters if len(parameters) > _LONGEST_QUERY else None
        headers = {**self._headers, **({"Content-Type": "application/x-www-form-urlencoded"} if body else {})}
        left = max(end - time.monotonic(), 0.001)
        connection = HTTPConnection(self.host, self._port, timeout=left)
        if self._is_secure:
            connection = HTTPSConnection(self.host, self._port, timeout=left, context=self._certificates)
        try:
            connection.request("POST" if body else "GET", path if body or not parameters else f"{path}?{parameters}", body, headers)
            timed: Any = SimpleNamespace(makefile=lambda mode: io.BufferedReader(TimedReader(connection.sock, end)))
            response = HTTPResponse(timed)
            response.begin()
            return self._data(response, response.read(self._bounds.max_answer + 1))
        finally:
            connection.close()

    def _data(self, response: HTTPResponse, answer: bytes) -> Any:
        if 300 <= response.status < 400:
            raise ValueError(f"redirects to another place, with status {response.status}")
        if len(answer) > self._bounds.max_answer:
            raise ValueError(f"an answer of more than {self._bounds.max_answer:,} bytes (--max-answer)")
        try:
            # (to read an `int` of many digits takes a time that grows with their square)
            found = json.loads(answer, parse_int=float)
        except (ValueError, RecursionError):
            found = None
        status = f"status {response.status} {_said(response.reason or '')}".strip()
        if not isinstance(found, dict) or found.get("status") not in ("success", "error"):
            kind = response.headers.get("Content-Type", "no type").partition(";")[0]
            raise ValueError(f"no answer of a Prometheus, but {_said(kind)}, with {status}")
        if found["status"] == "error":
            raise RefusedError(f"{self.url}: {status}: {_said(str(found.get('error', '')))}")
        return found.get("data")


class TimedReader(io.RawIOBase):
    """Reads from a socket until a time, however slowly bytes come."""

    def __init__(self, inner: socket.socket, end: float) -> None:
        self._inner, self._end = inner, end

    def readable(self) -> bool:
        return True

    def readinto(self, buffer: Any) -> int:
        left = self._end - time.monotonic()
        if left <= 0:
            raise socket.timeout("too late")
        self._inner.settimeout(left)
        return self._inner.recv_into(buffer)


def _said(text: str) -> str:
    """What a server says, as it is shown."""
    return visible(text[:_LONGEST_SAID]) + "…" * (len(text) > _LONGEST_SAID)


def api_of(arguments: argparse.Namespace) -> Optional[PrometheusApi]:
    """The server that the options name, if there is one. Where they are wrong, the command ends."""
    try:
        if arguments.prometheus is None:
            return None
        given = {name: getattr(arguments, f"prometheus_{name.replace('-', '_')}") for name in ACCESS}
        given = {name: value for name, value in given.items() if value is not None}
        for one, other in PAIRS:
            if (one in given) != (other in given):
                raise ApiError(f"--prometheus-{one} and --prometheus-{other} go together")
        bounds = ApiBounds(*(getattr(arguments, it) for it in ApiBounds._fields))
        return PrometheusApi(arguments.prometheus, bounds, _secret_of(given), _certificates_of(given))
    except (ApiError, FileError) as error:
        arguments.wrong(str(error))
    return None


def _secret_of(given: Dict[str, str]) -> str:
    """`NAME:PASSWORD`, a token, or nothing, as these options say."""
    ways = [name for name in ("credentials", "user", "bearer-file") if name in given]
    if len(ways) > 1:
        raise ApiError(f"--prometheus-{ways[0]} and --prometheus-{ways[1]} exclude each other")
    if "user" in given:
        user = given["user"]
        if ":" in user or not user.isascii() or not user.isprintable():
            raise ApiError("--prometheus-user has other characters than printable ones of ASCII, or a colon")
        return f"{user}:{_line_of(given['password-file'])}"
    secret = _line_of(given[ways[0]]) if ways else ""
    if ways == ["bearer-file"] and (not secret or ":" in secret):
        raise ApiError(f"{given['bearer-file']}: no token, which has no colon")
    return secret


def _line_of(name: str) -> str:
    line = read_source(name).text.rstrip("\r\n")
    if not line.isascii() or not line.isprintable():
        raise ApiError(f"{name}: not one line of printable characters of ASCII")
    return line


def _certificates_of(given: Dict[str, str]) -> Optional[ssl.SSLContext]:
    """What checks the certificate of a server, and has that of who asks it, where options name them."""
    files = [given[name] for name in ("ca-file", "cert-file", "key-file") if name in given]
    for name in files:
        if os.path.exists(name) and not os.path.isfile(name):
            raise ApiError(f"{name}: it is no regular file")
    texts = [read_source(name).text for name in files]
    try:
        if "ca-file" in given and not texts[0]:
            raise ValueError("an empty text would be those of the system")
        context = ssl.create_default_context(cadata=texts[0] if "ca-file" in given else None) if files else None
    except (ssl.SSLError, ValueError) as error:
        raise ApiError(f"{files[0]}: no certificates in PEM") from error
    if context and "cert-file" in given:
        try:
            # (nobody is asked for the password of a key)
            context.load_cert_chain(files[-2], files[-1], password="")
        except (ssl.SSLError, ValueError) as error:
            raise ApiError(f"{files[-2]} and {files[-1]}: no certificate and its key in PEM, without a password") from error
    return context
