"""Requests to promql-proxy and answers of it, and the program itself, for bindings/proxy.py and what that calls."""

import contextlib
import gzip
import http.client
import json
import re
import signal
import socket
import subprocess
import sys
import tempfile
import time
import urllib.parse
from collections.abc import Mapping, Sequence
from email.message import Message
from pathlib import Path
from typing import Any

from proxy_requests import NOW

ROOT = Path(__file__).resolve().parent.parent
sys.path[:0] = [str(ROOT / "bin"), str(ROOT / "bench" / "meaning")]
from checks import Checks  # noqa: E402
from compare import rounded  # type: ignore[import]  # noqa: E402

# What only others have in their data. A request may name it, as a client may guess a name; no answer does.
HIDDEN = re.compile(rb"hidden|Hidden|31337")
SECONDS = 20
Parameters = Mapping[str, Any] | Sequence[tuple[str, str]]

checks = Checks()


def check(name: str, is_so: bool, found: object = "") -> None:
    """Counts one thing that is checked, and says what was found where it fails."""
    checks.check(is_so, f"{name}: {str(found)[:1800]}")


class Answer:
    """The answer to a request: its status, its headers, and its text, which is not compressed any more."""

    def __init__(self, status: int, headers: Message, body: bytes) -> None:
        self.status, self.headers = status, headers
        self.body = gzip.decompress(body) if headers.get("Content-Encoding") == "gzip" else body

    def normal(self) -> tuple[int, object]:
        """What has to be the same before two servers: no times of now, and lists in an order of their own."""
        try:
            value = json.loads(self.body)
        except ValueError:
            lines = re.sub(rb" \d{13}$|1\.\d+e\+09", b"", self.body, flags=re.M).splitlines()
            return self.status, sorted(lines)
        return self.status, normal(rounded(value))


def normal(value: Any) -> object:
    """A value of JSON without the times of now, each list in an order of its own."""
    if isinstance(value, dict):
        left_out = {"evaluationTime", "lastEvaluation", "activeAt", "file", "timings"}
        if value.get("errorType") == "execution":
            # (the message names one of the series that do not match, any of them)
            left_out.add("error")
        return {key: normal(it) for key, it in value.items() if key not in left_out}
    if isinstance(value, list):
        if len(value) == 2 and isinstance(value[0], float | int) and value[0] > NOW + 10**7:
            return ["now", value[1]]
        return sorted((normal(it) for it in value), key=lambda it: json.dumps(it, sort_keys=True))
    if isinstance(value, float | int) and value > NOW + 10**7:
        return "now"
    return value


def send(port: int, text: bytes) -> Answer:
    """Sends bytes on a connection of their own, and returns the first answer, or one with status 0."""
    with socket.create_connection(("127.0.0.1", port), timeout=SECONDS) as connection:
        with contextlib.suppress(OSError):
            connection.sendall(text)
        response = http.client.HTTPResponse(connection, method=text.split(b" ", 1)[0].decode())
        try:
            response.begin()
            body = response.read()
        except (http.client.HTTPException, OSError):
            return Answer(0, Message(), b"")
        return Answer(response.status, response.headers, body)


def request_text(method: str, target: str, headers: Sequence[str] = (), body: bytes = b"") -> bytes:
    """The bytes of a request that is well formed."""
    lines = [f"{method} {target} HTTP/1.1", "Host: x", "Connection: close", *headers]
    if body:
        lines.append(f"Content-Length: {len(body)}")
    return "\r\n".join([*lines, "", ""]).encode("utf-8", "surrogateescape") + body


def get_text(path: str, parameters: Parameters, *headers: str) -> bytes:
    """The bytes of a GET."""
    return request_text("GET", f"{path}?{urllib.parse.urlencode(parameters, doseq=True)}", headers)


def get(port: int, path: str, parameters: Parameters, *headers: str) -> Answer:
    """The answer to a GET."""
    return send(port, get_text(path, parameters, *headers))


def post(port: int, path: str, parameters: Parameters, *headers: str) -> Answer:
    """The answer to a POST of a form."""
    body = urllib.parse.urlencode(parameters, doseq=True).encode()
    return send(port, request_text("POST", path, ("Content-Type: application/x-www-form-urlencoded", *headers), body))


# ---- the proxies


def free_port() -> int:
    """A port of this machine that nothing listens on."""
    with socket.socket() as free:
        free.bind(("127.0.0.1", 0))
        return int(free.getsockname()[1])


class Proxy:
    """The program before a server."""

    def __init__(self, program: str, upstream: str, *options: str) -> None:
        self.port, self.inside = free_port(), free_port()
        words = [program, "-listen", f"127.0.0.1:{self.port}", "-internal-listen", f"127.0.0.1:{self.inside}"]
        words += ["-upstream", upstream, "-label", "tenant", *options]
        self.log = tempfile.TemporaryFile()
        self.process = subprocess.Popen(words, stdout=subprocess.DEVNULL, stderr=self.log)
        for _ in range(200):
            with contextlib.suppress(OSError), socket.create_connection(("127.0.0.1", self.port)):
                return
            time.sleep(0.05)
        self.end()
        raise SystemExit("the proxy does not start")

    def end(self) -> tuple[int, str]:
        """Ends the program, and returns its status and its log."""
        self.process.send_signal(signal.SIGTERM)
        status = self.process.wait(30)
        self.log.seek(0)
        return status, self.log.read().decode(errors="replace")
