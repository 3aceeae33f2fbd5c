#!/usr/bin/env python3
"""Holds promql-proxy against a real Prometheus: no answer to a tenant shows or depends on anything of another (docs/guide/proxy.md).

usage: bindings/proxy.py PROXY        by a Python that finds the package promql, with Debian's prometheus and promtool

Starts two servers on 127.0.0.1, one with the series, exemplars, rules and alerts of several tenants, and one with those of tenant a
alone, and the program PROXY before each. Each request, honest or hostile, is sent to both proxies:

- no answer has a text in it that only others' data has;
- both proxies give one answer, whatever else the first server has;
- an honest one gets what the server with tenant a alone gives, and what the first one gives to the enforced query.

Prints what fails, and last 'N passed, M failed'. bindings/test.sh --proxy calls this, and bounds its time.
"""

import contextlib
import json
import os
import random
import re
import shutil
import subprocess
import sys
import tempfile
import threading
import time
from collections.abc import Iterator, Sequence
from http.server import BaseHTTPRequestHandler, ThreadingHTTPServer
from pathlib import Path
from typing import Any

import promql
import proxy_alertmanager
from proxy_client import HIDDEN, Answer, Proxy, check, checks, get, get_text, post, request_text, send
from proxy_requests import CONFLICTS, HONEST_EXEMPLARS, HONEST_PATHS, HONEST_QUERIES, MATCH_PATHS, NOW, SELECTORS_OF_NOW, SELECTORS_OF_SERIES
from proxy_requests import SHARED, TENANT_PATHS, hostile_requests
from proxy_servers import known_proxies, metadata_of_targets

from compare import Maker, Prometheus, Series, samples_of  # type: ignore[import]


# ---- the data


def series_of(rng: random.Random, tenants: Sequence[str]) -> Iterator[Any]:
    """The series of a store: the same metrics for each tenant, and some that others have alone."""
    for tenant in tenants:
        labels = {"tenant": tenant} if tenant else {}
        yield Series("shared_info", {**labels, "node": "n"}, [1] * 240)
        if tenant not in ("a", "c.d"):
            labels["mark"] = "hidden_mark"
        for job in ("api", "web", "db"):
            for code in ("200", "500"):
                yield Series("http_requests_total", {**labels, "job": job, "code": code}, samples_of(rng, "http_requests_total"))
            yield Series("memory_bytes", {**labels, "job": job}, samples_of(rng, "memory_bytes"))
            yield Series("up", {**labels, "job": job}, [1 if tenant == "a" else 0] * 240)
            for bound in ("1", "10", "+Inf"):
                yield Series("request_seconds_bucket", {**labels, "job": job, "le": bound}, samples_of(rng, "request_seconds_bucket"))
        if "mark" in labels:
            yield Series("hidden_metric", {**labels, "hidden_label": "hidden_value"}, [31337] * 240)


def exposition(tenants: Sequence[str]) -> str:
    """What the exporter shows of these tenants: constant samples with exemplars."""
    lines = ["# TYPE live_gauge gauge"]
    for tenant in tenants:
        lines.append(f'live_gauge{{tenant="{tenant}"}} {7 if tenant == "a" else 31337}')
    lines.append("# TYPE live_requests counter")
    for tenant in tenants:
        trace = "trace_a" if tenant == "a" else "hidden_trace"
        lines.append(f'live_requests_total{{tenant="{tenant}"}} 5 # {{trace_id="{trace}"}} 1')
    if len(tenants) > 1:
        lines += ["# TYPE hidden_live gauge", 'hidden_live{tenant="b",hidden_label="hidden_value"} 31337']
    return "\n".join([*lines, "# EOF", ""])


class Exporter(BaseHTTPRequestHandler):
    """Shows the metrics of all tenants at /many, and those of one at /one."""

    def do_GET(self) -> None:
        """Answers."""
        text = exposition(("a", "b") if self.path == "/many" else ("a",)).encode()
        self.send_response(200)
        self.send_header("Content-Type", "application/openmetrics-text; version=1.0.0; charset=utf-8")
        self.send_header("Content-Length", str(len(text)))
        self.end_headers()
        self.wfile.write(text)

    def log_message(self, *_: object) -> None:
        """Says nothing."""


RULES_OF_A = """
  - record: recorded_a
    expr: vector(1)
    labels: {tenant: a}
  - alert: AlertOfA
    expr: vector(1) < 2
    labels: {tenant: a, severity: page}
    annotations: {summary: a is down}
"""
RULES_OF_OTHERS = """
  - record: hidden_recorded
    expr: vector(31337)
    labels: {tenant: b}
  - record: hidden_of_none
    expr: vector(31337)
  - record: hidden_in_great_letters
    expr: vector(31337)
    labels: {tenant: A}
  - alert: HiddenWithBlank
    expr: vector(31337)
    labels: {tenant: "a "}
  - alert: HiddenAlert
    expr: vector(31337)
    labels: {tenant: b}
    annotations: {summary: hidden summary}
  - alert: HiddenFromLabels
    expr: label_replace(vector(31337), "tenant", "b", "", "")
    annotations: {summary: "hidden {{ $labels.tenant }}"}
"""
GROUP_OF_OTHERS = "- name: hidden_group\n  rules:" + RULES_OF_OTHERS


def settings(folder: Path, port: int, path: str, rules: str) -> str:
    """The configuration of a server that scrapes the exporter, with a file of rules beside it."""
    rule_file = folder / "rules.yml"
    rule_file.write_text("groups:\n- name: group_a\n  rules:" + rules)
    return (
        f"global: {{evaluation_interval: 1s}}\nrule_files: ['{rule_file}']\nscrape_configs:\n- job_name: stub\n  honor_labels: true\n"
        f"  scrape_interval: 1s\n  metrics_path: {path}\n  static_configs:\n  - targets: ['127.0.0.1:{port}']\n    labels: {{tenant: scrape}}\n"
    )


class World:
    """The two servers, and the proxies before them."""

    def __init__(self, program: str, stack: contextlib.ExitStack) -> None:
        folder = Path(stack.enter_context(tempfile.TemporaryDirectory()))
        exporter = ThreadingHTTPServer(("127.0.0.1", 0), Exporter)
        threading.Thread(target=exporter.serve_forever, daemon=True).start()
        stack.callback(exporter.shutdown)
        port, rules = exporter.server_port, RULES_OF_A + RULES_OF_OTHERS + GROUP_OF_OTHERS
        self.many = self.server(stack, folder / "many", port, ("a", "b", "c.d", "cxd", ""), rules)
        self.one = self.server(stack, folder / "one", port, ("a",), RULES_OF_A)
        self.proxies = []
        for server, *options in (
            (self.many, "-tenant-header", "X-Tenant"),
            (self.one, "-tenant-header", "X-Tenant"),
            (self.many, "-tenant-header", "X-Tenant", "-tenant-list"),
            (self.many, "-tenant-parameter", "team"),
            (self.many, "-tenant", "a"),
            (self.many, "-tenant-path", "/tenants/", "-set-header", "X-Scope-OrgID: {tenant}"),
            (self.many, "-tenant-header", "X-Tenant", "-error-on-conflict"),
            (self.many, "-tenant-header", "X-Tenant", "-shared-metric", "shared_info"),
        ):
            self.proxies.append(Proxy(program, f"http://127.0.0.1:{server.port}", *options))
            stack.callback(self.end, self.proxies[-1])
        ports = [it.port for it in self.proxies]
        self.to_many, self.to_one, self.lists, self.parameters, self.fixed, self.paths, self.conflicts, self.shared = ports

    @staticmethod
    def server(stack: contextlib.ExitStack, folder: Path, port: int, tenants: Sequence[str], rules: str) -> Any:
        """A server with these tenants, of whom a has the same samples each time."""
        folder.mkdir()
        text = settings(folder, port, "/many" if len(tenants) > 1 else "/one", rules)
        options = ("--enable-feature=exemplar-storage", "--web.enable-admin-api", "--web.enable-lifecycle")
        made = Prometheus(folder / "store", series_of(random.Random(1), tenants), text, options)
        stack.callback(made.end)
        return made

    @staticmethod
    def end(proxy: Proxy) -> None:
        """Ends a proxy, and looks at how it ended and what it wrote."""
        status, log = proxy.end()
        check("the proxy ends", status == 0, (status, log[-300:]))
        check("the log of the proxy has no query and no panic", "memory_bytes" not in log and "panic" not in log, log[-300:])

    def await_data(self) -> None:
        """Waits until both servers have scraped, evaluated their rules, and fire their alerts."""
        for _ in range(200):
            if all(self.has_data(server) for server in (self.many, self.one)):
                return
            time.sleep(0.1)
        raise SystemExit("the servers do not come to their data")

    @staticmethod
    def has_data(server: Any) -> bool:
        """Whether a server has what is waited for."""
        exemplars = "query_exemplars?query=live_requests_total&start=0&end=9999999999"
        paths = ("query?query=live_gauge", "query?query=recorded_a", "query?query=ALERTS", "alerts", exemplars)
        found = [json.loads(server.get(f"/api/v1/{path}")[1])["data"] for path in paths]
        return bool(all(it["result"] for it in found[:3]) and found[3]["alerts"] and found[4])


AS_A = "X-Tenant: a"


def same_for_both(world: World, name: str, text: bytes) -> Answer:
    """Sends a request to the proxies before both servers, and looks for what is hidden; the answer of the first."""
    answers = [send(port, text) for port in (world.to_many, world.to_one)]
    first, second = (it.normal() for it in answers)
    check(f"{name}: one answer whatever others have", first == second, (first, second))
    check(f"{name}: nothing of others", not HIDDEN.search(answers[0].body), answers[0].body)
    return answers[0]


def honest_queries(world: World) -> int:
    """Queries at a time and over a range; each is compared with what the servers say themselves. How many of them others would change."""
    changed = 0
    ranged = {"start": NOW - 1200, "end": NOW, "step": 120}
    for number, (query, is_at_home) in enumerate(HONEST_QUERIES):
        enforced = promql.enforce(query, 'tenant="a"')
        for path, times in (("/api/v1/query", {"time": NOW}), ("/api/v1/query_range", ranged)):
            name = f"{path} {query}"
            asked: dict[str, object] = {"query": query, **times}
            wanted: dict[str, object] = {**asked, "query": enforced}
            found = same_for_both(world, name, get_text(path, asked, AS_A))
            check(f"{name}: as the enforced query", found.normal() == get(world.many.port, path, wanted).normal(), found.body)
            alone, among = get(world.one.port, path, asked), get(world.many.port, path, asked)
            if is_at_home:
                check(f"{name}: as the tenant's own server", found.normal() == alone.normal(), (found.body, alone.body))
            changed += among.normal() != alone.normal()
            if number % 3 == 0:
                check(f"{name}: POST", post(world.to_many, path, asked, AS_A).normal() == found.normal())
                check(f"{name}: gzip", get(world.to_many, path, asked, AS_A, "Accept-Encoding: gzip").normal() == found.normal())
                check(f"{name}: by a parameter", get(world.parameters, path, {**asked, "team": "a"}).normal() == found.normal())
                check(f"{name}: fixed", get(world.fixed, path, asked).normal() == found.normal())
                check(f"{name}: by a path", get(world.paths, f"/tenants/a{path}", asked).normal() == found.normal())
    return changed


def enforced_all(selectors: Sequence[str]) -> Sequence[str]:
    """Selectors that are sent to a server in place of these."""
    return [promql.enforce(it, 'tenant="a"') for it in selectors] or ['{tenant="a"}']


def honest_selectors(world: World) -> None:
    """Series, labels and their values."""
    for path in MATCH_PATHS:
        for selectors in SELECTORS_OF_SERIES:
            asked: dict[str, object] = {"match[]": selectors, "start": NOW - 1200, "end": NOW}
            wanted: dict[str, object] = {**asked, "match[]": enforced_all(selectors)}
            name = f"{path} {selectors}"
            found = same_for_both(world, name, get_text(path, asked, AS_A))
            check(f"{name}: as the enforced selectors", found.normal() == get(world.many.port, path, wanted).normal(), found.body)
            alone = get(world.one.port, path, asked if selectors else {**asked, "match[]": ['{__name__=~".+"}']})
            check(f"{name}: as the tenant's own server", found.normal() == alone.normal(), (found.body, alone.body))
            check(f"{name}: it is a success", b'"success"' in found.body, found.body)


def honest_federation(world: World) -> None:
    """Federation, of samples of now."""
    for selectors in SELECTORS_OF_NOW:
        wanted = enforced_all(selectors)
        name = f"/federate {selectors}"
        found = same_for_both(world, name, get_text("/federate", {"match[]": selectors}, AS_A))
        check(f"{name}: as the enforced selectors", found.normal() == get(world.many.port, "/federate", {"match[]": wanted}).normal(), found.body)
        check(f"{name}: it has the tenant's samples", b"live_gauge{" in found.body, found.body)


def honest_others(world: World) -> None:
    """Exemplars, rules and alerts."""
    for query in HONEST_EXEMPLARS:
        asked = {"query": query, "start": 0, "end": 9999999999}
        name = f"exemplars {query}"
        found = same_for_both(world, name, get_text("/api/v1/query_exemplars", asked, AS_A))
        alone = get(world.one.port, "/api/v1/query_exemplars", asked)
        check(f"{name}: as the tenant's own server", found.normal() == alone.normal(), (found.body, alone.body))
        check(f"{name}: there are some", (b"trace_a" in found.body) == ("tenant" not in query), found.body)
    for path in HONEST_PATHS:
        found = same_for_both(world, path, request_text("GET", path, [AS_A]))
        alone, among = (send(port, request_text("GET", path)) for port in (world.one.port, world.many.port))
        check(f"{path}: as the tenant's own server", found.normal() == alone.normal(), (found.normal(), alone.normal()))
        check(f"{path}: others have more", bool(HIDDEN.search(among.body)), among.body)


def honest_without_series(world: World) -> None:
    """Requests that read no series get what the server says, and values of labels come by POST, too."""
    without: Sequence[tuple[str, dict[str, str]]] = (("/api/v1/format_query", {"query": "sum(rate(a[5m]))by(b)"}), ("/api/v1/status/buildinfo", {}))
    for path, parameters in without:
        found = same_for_both(world, path, get_text(path, parameters, AS_A))
        check(f"{path}: as the server", found.status == 200 and found.body == get(world.many.port, path, parameters).body, found.body)
    for selectors in SELECTORS_OF_SERIES:
        asked: dict[str, object] = {"match[]": selectors, "start": NOW - 1200, "end": NOW}
        path = "/api/v1/label/job/values"
        check(f"{path} {selectors}: POST", post(world.to_many, path, asked, AS_A).normal() == get(world.to_many, path, asked, AS_A).normal())
    found = same_for_both(world, "rules by a selector", get_text("/api/v1/rules", {"match[]": '{severity="page"}'}, AS_A))
    check("rules by a selector are these", b"AlertOfA" in found.body and b"recorded_a" not in found.body, found.body)


def conflicts(world: World) -> None:
    """Where a conflict is an error, a query with another matcher of the label gets none, and any other what it gets without that."""
    for query, status in CONFLICTS:
        asked = {"query": query, "time": NOW}
        found = get(world.conflicts, "/api/v1/query", asked, AS_A)
        same = status != 200 or found.normal() == get(world.to_many, "/api/v1/query", asked, AS_A).normal()
        check(f"conflict {query}", found.status == status and same, (found.status, found.body))


def shared_metrics(world: World) -> None:
    """A shared metric is that of all tenants, and no other is, whatever a client asks."""
    for query, is_whole in SHARED:
        asked = {"query": query, "time": NOW}
        found, whole = get(world.shared, "/api/v1/query", asked, AS_A), get(world.many.port, "/api/v1/query", asked)
        check(f"shared {query}", found.status == 200 and (found.normal() == whole.normal()) == is_whole, (found.body, whole.body))
        check(f"shared {query}: nothing of others", not HIDDEN.search(found.body), found.body)
    found = get(world.shared, "/api/v1/series", {"start": NOW - 1200, "end": NOW}, AS_A)
    names = [it.get("tenant") for it in json.loads(found.body)["data"] if it["__name__"] == "shared_info"]
    check("all series", sorted(map(str, names)) == ["None", "a", "b", "c.d", "cxd"] and not HIDDEN.search(found.body), found.body)
    for name, text, _ in hostile_requests():
        found = send(world.shared, text)
        check(f"{name}, with a shared metric: nothing of others", not HIDDEN.search(found.body), found.body)


def random_queries(world: World) -> int:
    """Queries by all functions and operators: how many there are. Of equal values `topk` and `bottomk` take any."""
    maker, number = Maker(random.Random(1)), 0
    while number < 200:
        query = maker.query()
        if not re.search(r"\b(topk|bottomk)\b", query):
            number += 1
            same_for_both(world, f"random {query}", get_text("/api/v1/query", {"query": query, "time": NOW}, AS_A))
    return number


def several_tenants(world: World) -> None:
    """A list of two tenants is those two, though one has a character of patterns."""
    allowed = 'tenant=~"a|c[.]d"'
    for query in ("up", "sum(memory_bytes)", 'count by (tenant) ({__name__=~".+"})', 'up{tenant=~"c.*"}'):
        found = get(world.lists, "/api/v1/query", {"query": query, "time": NOW}, "X-Tenant: a, c.d")
        wanted = get(world.many.port, "/api/v1/query", {"query": promql.enforce(query, allowed), "time": NOW})
        check(f"two tenants {query}", found.normal() == wanted.normal() and not HIDDEN.search(found.body) and b'"success"' in found.body, found.body)
    for tenants, series in (("a", 3), ("a,c.d", 6), ("c.d", 3), ("cxd", 3), ("c.d,.*", 3), (".*", 0), (".+,a|b", 0), ("[ab],(a)", 0), ("A", 0)):
        found = get(world.lists, "/api/v1/query", {"query": "up", "time": NOW}, f"X-Tenant: {tenants}")
        check(f"tenants {tenants}", len(json.loads(found.body)["data"]["result"]) == series, found.body)


def hostile(world: World) -> int:
    """Requests of a client who wants more: how many there are."""
    number = 0
    for number, (name, text, status) in enumerate(hostile_requests(), 1):
        found = same_for_both(world, name, text)
        check(f"{name}: status {status}", found.status == status, (found.status, found.body))
    for name, text, _ in hostile_requests("team=a&", ()):
        found = send(world.parameters, text)
        check(f"{name}, by a parameter: nothing of others", not HIDDEN.search(found.body), found.body)
    for path, status in TENANT_PATHS:
        found = send(world.paths, request_text("GET", f"{path}/api/v1/query?query=hidden_metric&time={NOW}"))
        check(f"tenant in {path}: status {status}, nothing of others", found.status == status and not HIDDEN.search(found.body), (found.status, found.body))
    return number


def alertmanagers(program: str) -> None:
    """The paths of an Alertmanager, where Debian's is installed."""
    if shutil.which("prometheus-alertmanager") is None:
        print("not tried: the proxy before an Alertmanager: there is no prometheus-alertmanager here")
        return
    proxy_alertmanager.compare(program)


def metrics(world: World) -> None:
    """The metrics of the proxies, as the reader of Prometheus reads them."""
    for proxy in world.proxies:
        text = send(proxy.inside, request_text("GET", "/metrics")).body
        read = subprocess.run(["promtool", "check", "metrics"], input=text, capture_output=True, check=False)
        has_some = b'promql_proxy_requests_total{endpoint="query",method="GET",code="200"}' in text
        check("the metrics", read.returncode == 0 and has_some, (read.stdout, read.stderr, text))


def main() -> int:
    """Runs all comparisons."""
    with contextlib.ExitStack() as stack:
        world = World(os.path.abspath(sys.argv[1]), stack)
        world.await_data()
        changed = honest_queries(world)
        check("others change what most queries give", changed > len(HONEST_QUERIES), changed)
        honest_selectors(world)
        honest_federation(world)
        honest_others(world)
        honest_without_series(world)
        conflicts(world)
        shared_metrics(world)
        several_tenants(world)
        made = random_queries(world)
        attacks = hostile(world)
        metrics(world)
        known_proxies(os.path.abspath(sys.argv[1]))
        metadata_of_targets(os.path.abspath(sys.argv[1]))
        alertmanagers(os.path.abspath(sys.argv[1]))
        alive = json.loads(get(world.many.port, "/api/v1/query", {"query": "count(hidden_metric)", "time": NOW}).body)
        check("the server has its data after all that", alive["data"]["result"][0]["value"][1] == "3", alive)
    asked = 2 * len(HONEST_QUERIES) + len(MATCH_PATHS) * len(SELECTORS_OF_SERIES) + len(SELECTORS_OF_NOW) + len(HONEST_EXEMPLARS) + len(HONEST_PATHS)
    print(f"{asked} honest requests, of whose queries others change {changed}; {made} random ones; {attacks} hostile ones")
    return checks.end()


if __name__ == "__main__":
    sys.exit(main())
