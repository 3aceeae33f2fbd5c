"""Holds promql-proxy against a real Alertmanager, for bindings/proxy.py: a tenant sees, makes and ends silences of its own alone."""

import contextlib
import http.client
import json
import subprocess
import tempfile
import time
from collections.abc import Mapping, Sequence
from pathlib import Path
from typing import Any

from proxy_client import HIDDEN, Proxy, check, free_port

SETTINGS = """
route: {receiver: all, group_by: [alertname], group_wait: 1s}
receivers: [{name: all}]
"""
BEGIN, END = "2026-01-01T00:00:00.000Z", "2099-01-01T00:00:00.000Z"


class Alertmanager:
    """A server on this machine with the alerts of some tenants."""

    def __init__(self, folder: Path, port: int, tenants: Sequence[str]) -> None:
        folder.mkdir()
        (folder / "settings.yml").write_text(SETTINGS)
        self.port = port
        words = ["prometheus-alertmanager", "--config.file=settings.yml", "--storage.path=data", "--cluster.listen-address="]
        words.append(f"--web.listen-address=127.0.0.1:{port}")
        self.process = subprocess.Popen(words, cwd=folder, stdout=subprocess.DEVNULL, stderr=subprocess.DEVNULL)
        for _ in range(200):
            with contextlib.suppress(OSError, http.client.HTTPException):
                if ask(port, "GET", "/-/ready")[0] == 200:
                    break
            time.sleep(0.1)
        ask(port, "POST", "/api/v2/alerts", [alert for tenant in tenants for alert in alerts_of(tenant)])

    def end(self) -> None:
        """Ends the server."""
        self.process.terminate()
        self.process.wait(30)


def alerts_of(tenant: str) -> Sequence[Mapping[str, object]]:
    """The alerts of a tenant, or of none: the same names for all, and what others have alone is hidden."""
    labels = {"tenant": tenant} if tenant else {}
    if tenant != "a":
        labels["mark"] = "hidden_mark"
    made = [{"labels": {**labels, "alertname": name}, "annotations": {}, "startsAt": BEGIN, "endsAt": END} for name in ("Down", "Slow")]
    if tenant != "a":
        made.append({"labels": {**labels, "alertname": "Hidden"}, "annotations": {"summary": "hidden"}, "startsAt": BEGIN, "endsAt": END})
    return made


def ask(port: int, method: str, path: str, body: object = None, *headers: tuple[str, str]) -> tuple[int, Any]:
    """The status of a request, whose body is JSON, and the answer, as JSON or as a text."""
    connection = http.client.HTTPConnection("127.0.0.1", port, timeout=20)
    with contextlib.closing(connection):
        text = None if body is None else json.dumps(body)
        connection.request(method, path, text, {"Content-Type": "application/json", **dict(headers)})
        response = connection.getresponse()
        found = response.read().decode()
        with contextlib.suppress(ValueError):
            return response.status, json.loads(found)
        return response.status, found


def normal(value: Any) -> object:
    """An answer without what is another each time, each list in an order of its own."""
    if isinstance(value, dict):
        return {key: normal(it) for key, it in value.items() if key not in ("id", "updatedAt", "silencedBy", "startsAt", "endsAt")}
    if isinstance(value, list):
        return sorted((normal(it) for it in value), key=lambda it: json.dumps(it, sort_keys=True))
    return value


def silence(*matchers: tuple[str, str, bool], **more: object) -> Mapping[str, object]:
    """A silence with these matchers, of a name, a value and whether that is a pattern."""
    made = [{"name": name, "value": value, "isRegex": is_pattern} for name, value, is_pattern in matchers]
    return {"matchers": made, "startsAt": BEGIN, "endsAt": END, "createdBy": "me", "comment": "", **more}


EVERYTHING = ("alertname", ".*", True)

# Silences that a client of tenant a may ask for, and the status.
ASKED: Sequence[tuple[Mapping[str, object], int]] = (
    (silence(("alertname", "Down", False)), 200),
    (silence(("alertname", "Down", False), ("tenant", "a", False)), 200),
    (silence(("mark", ".*mark", True)), 200),
    (silence(EVERYTHING, ("tenant", "b", False)), 400),
    (silence(EVERYTHING, ("tenant", "a|b", True)), 400),
    (silence(EVERYTHING, ("tenant", ".*", True)), 400),
    (silence(EVERYTHING, ("tenant", "", False)), 400),
    (silence(EVERYTHING, ("tenant", "a", False), ("tenant", "b", False)), 400),
    (silence(("alertname", "(", True)), 400),
    (silence(("not a name", "x", False)), 400),
    (silence(EVERYTHING, id="x"), 400),
    (silence(EVERYTHING, id="01234567-89ab-cdef-0123-456789abcdef"), 404),
)
READ_PATHS = (
    "/api/v2/alerts",
    "/api/v2/alerts?filter=alertname%3D%22Down%22",
    "/api/v2/alerts?filter=tenant%3D%22b%22",
    "/api/v2/alerts?active=false",
    "/api/v2/alerts/groups",
    "/api/v2/alerts/groups?receiver=all",
    "/api/v2/silences",
    "/api/v2/silences?filter=tenant%3D%22b%22",
)


def read_all(proxies: Sequence[int], when: str) -> None:
    """Each path gives one answer, whatever others have, and nothing of theirs."""
    for path in READ_PATHS:
        many, one = (ask(port, "GET", path) for port in proxies)
        check(f"{path} {when}: one answer whatever others have", many[0] == 200 and normal(many[1]) == normal(one[1]), (many, one))
        check(f"{path} {when}: nothing of others", not HIDDEN.search(json.dumps(many).encode()), many)


def states(server: Alertmanager) -> Mapping[str, set[str]]:
    """The states that the alerts of each tenant have."""
    found: dict[str, set[str]] = {}
    for alert in ask(server.port, "GET", "/api/v2/alerts")[1]:
        found.setdefault(alert["labels"].get("tenant", ""), set()).add(alert["status"]["state"])
    return found


def hold(many: Alertmanager, proxies: Sequence[int]) -> None:
    """Compares the proxies before both servers, and attacks a silence of tenant b."""
    made = ask(many.port, "POST", "/api/v2/silences", silence(("mark", "hidden_mark", False), ("tenant", "b", False), ("alertname", "Down", False)))
    theirs = f"/api/v2/silence/{made[1]['silenceID']}"
    read_all(proxies, "at first")
    for body, status in ASKED:
        found = [ask(port, "POST", "/api/v2/silences", body) for port in proxies]
        check(f"{body}: status {status}", [it[0] for it in found] == [status, status], found)
    read_all(proxies, "with silences")
    taken = silence(EVERYTHING, id=made[1]["silenceID"])
    for method, path, sent in ("GET", theirs, None), ("DELETE", theirs, None), ("POST", "/api/v2/silences", taken):
        found = [ask(port, method, path, sent) for port in proxies]
        check(f"{method} of a silence of another", found[0] == found[1] and found[0][0] == 404, found)
    check("the silence of another is active", ask(many.port, "GET", theirs)[1]["status"]["state"] == "active", theirs)
    check("silences of a are for a alone", states(many) == {"a": {"active", "suppressed"}, "b": {"active", "suppressed"}, "": {"active"}}, states(many))
    found = [ask(port, "POST", "/api/v2/silences", silence(EVERYTHING)) for port in proxies]
    check("everything of a is silent", states(many) == {"a": {"suppressed"}, "b": {"active", "suppressed"}, "": {"active"}}, states(many))
    for port, (_, answer) in zip(proxies, found):
        changed = ask(port, "POST", "/api/v2/silences", silence(EVERYTHING, id=answer["silenceID"], comment="changed"))
        own = f"/api/v2/silence/{changed[1]['silenceID']}"
        check("a silence of one's own is changed", changed[0] == 200 and ask(port, "GET", own)[1]["comment"] == "changed", changed)
        check("a silence of one's own is ended", ask(port, "DELETE", own)[0] == 200 and ask(port, "GET", own)[1]["status"]["state"] == "expired", own)
    read_all(proxies, "at last")


def compare(program: str) -> None:
    """Starts two servers, one with the alerts of several tenants and one with those of a alone, and a proxy before each."""
    with contextlib.ExitStack() as stack:
        folder = Path(stack.enter_context(tempfile.TemporaryDirectory()))
        servers, proxies = [], []
        for name, tenants in ("many", ("a", "b", "")), ("one", ("a",)):
            servers.append(Alertmanager(folder / name, free_port(), tenants))
            stack.callback(servers[-1].end)
            options = ("-start-timeout", "0", "-tenant", "a", "-alertmanager", f"http://127.0.0.1:{servers[-1].port}")
            proxy = Proxy(program, "http://127.0.0.1:9", *options)
            stack.callback(proxy.end)
            proxies.append(proxy.port)
        hold(servers[0], proxies)
