"""What a Prometheus on this machine knows of metrics, labels and values: asked for in the background when it is needed."""

from __future__ import annotations

import ipaddress
import threading
import time
import urllib.parse
from collections import deque
from typing import Any, Callable, Deque, Dict, List, Optional, Tuple

from ..options import ApiBounds
from ..prometheus_api import ApiError, PrometheusApi
from .names import Known

# One request has so many seconds and bytes. At most so many are made in a minute, after which an answer is asked for again.
_BOUNDS = ApiBounds(max_requests=1, request_timeout=2, server_timeout=2, max_answer=8 * 1024 * 1024)
_MOST_REQUESTS, _AGE = 120, 60.0
# The most names that are kept of an answer.
_MOST_NAMES = 20_000
_ENDS = ("_bucket", "_sum", "_count", "_total")

Key = Tuple[str, Tuple[Tuple[str, str], ...]]


class NotHere(ValueError):
    """The URL is none of a server on this machine."""


class Prometheus:
    """What a server knows, as far as it was told till now."""

    def __init__(self, url: str) -> None:
        try:
            host = PrometheusApi(url).host
        except ApiError as error:
            raise NotHere(str(error)) from error
        if not _is_here(host):
            raise NotHere(f"not the URL of a server on this machine: {url}")
        self._url = url
        # Called by another thread when something was told.
        self.report: Callable[[], None] = lambda: None
        self._told: Dict[Key, Tuple[float, List[Any]]] = {}
        self._wanted: Deque[Key] = deque()
        self._times: Deque[float] = deque(maxlen=_MOST_REQUESTS)
        self._lock = threading.Lock()
        self._thread: Optional[threading.Thread] = None

    def known(self, metric: str = "", label: str = "") -> Known:
        """The names of metrics and labels, the labels of a metric, and the values of a label, those of the metric where it has some."""
        of_metric = {"match[]": metric} if metric else {}
        found = Known(set(self._names("label/__name__/values")), set(self._names("labels")), {}, set())
        if metric and not label:
            found.near.update(self._names("labels", **of_metric))
        if label:
            path = f"label/{urllib.parse.quote(label, safe='')}/values"
            of_all, some = self._names(path), self._names(path, **of_metric)
            found.values[label] = set(some or of_all)
        for labels in (found.labels, found.near):
            labels.discard("__name__")
        return found

    def help(self, metric: str) -> str:
        """The type and the help of a metric, or those of the histogram or the counter that it is of."""
        names = [metric, *(metric[: -len(end)] for end in _ENDS if metric.endswith(end))]
        return next((it for name in names for it in self._ask("metadata", metric=name, limit_per_metric="1")), "")

    @property
    def is_busy(self) -> bool:
        return self._thread is not None

    def wait(self, seconds: float) -> None:
        """Waits for what is asked for."""
        thread = self._thread
        if thread:
            thread.join(seconds)

    def _names(self, path: str, **parameters: str) -> List[str]:
        return [name for name in self._ask(path, **parameters) if isinstance(name, str)]

    def _ask(self, path: str, **parameters: str) -> List[Any]:
        """What the server told; what it did not tell, or a while ago, is asked for."""
        key, now = (path, tuple(parameters.items())), time.monotonic()
        with self._lock:
            since, answer = self._told.get(key, (0.0, []))
            is_known = key in self._told and now - since <= _AGE
            has_room = len(self._times) < _MOST_REQUESTS or now - self._times[0] > 60
            if not is_known and key not in self._wanted and has_room:
                self._times.append(now)
                self._wanted.append(key)
                if not self._thread:
                    self._thread = threading.Thread(target=self._answer_all, daemon=True)
                    self._thread.start()
            return answer

    def _answer_all(self) -> None:
        while True:
            with self._lock:
                if not self._wanted:
                    self._thread = None
                    break
                key = self._wanted[0]
            answer = self._answer(key)
            with self._lock:
                self._wanted.popleft()
                self._told = {} if len(self._told) >= _MOST_REQUESTS else self._told
                self._told[key] = time.monotonic(), answer
        self.report()

    def _answer(self, key: Key) -> List[Any]:
        """What the server answers; nothing where it has no answer."""
        try:
            data = PrometheusApi(self._url, _BOUNDS).get(key[0], dict(key[1]))
        except ApiError:
            return []
        if key[0] != "metadata":
            return data[:_MOST_NAMES] if isinstance(data, list) else []
        found = data.get(key[1][0][1]) if isinstance(data, dict) else None
        first = found[0] if isinstance(found, list) and found and isinstance(found[0], dict) else {}
        return [f"{first.get('type')}. {first.get('help')}"] if first else []


def _is_here(host: str) -> bool:
    if host == "localhost":
        return True
    try:
        return ipaddress.ip_address(host).is_loopback
    except ValueError:
        return False
