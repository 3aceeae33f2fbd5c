#!/usr/bin/env python3
"""Holds the cache of promql-proxy against a real Prometheus whose data grows meanwhile (docs/guide/cache.md).

usage: bindings/proxy_cache.py PROXY [--count 1000 | --measure]        by a Python that finds the package promql, with Debian's prometheus and promtool

Starts a server on 127.0.0.1 with a day of samples of two tenants, which scrapes more of them each second, and the program PROXY before it:

- random range queries get, byte for byte, what the server gives to the enforced query: twice each, and once more when all were asked;
- many clients at once that ask one query have each part asked for once;
- while answers are cut off or fail, no half of one is kept;
- two tenants, by several ways of naming them, get the answers to their own queries alone;
- two proxies share what a memcached keeps, and one that lies changes no answer, where Debian's memcached is installed.

Prints what fails, and last 'N passed, M failed'. bindings/test.sh --proxy calls this, and bounds its time.
"""

import argparse
import collections
import contextlib
import datetime
import json
import os
import random
import re
import shutil
import socket
import subprocess
import sys
import tempfile
import threading
import time
import urllib.parse
from collections.abc import Iterator, Mapping
from http.client import HTTPConnection, HTTPException
from http.server import BaseHTTPRequestHandler, ThreadingHTTPServer
from pathlib import Path
from typing import Any, NamedTuple

import promql
from proxy_client import Proxy, check, checks, free_port, request_text, send

import compare as meaning  # type: ignore[import]

TENANTS = ("a", "b")
# The samples before the server starts: a day, one each minute.
STEP, SAMPLES = 60, 1440
RANGE = "/api/v1/query_range"
# How long after its time a sample comes at most: a scrape is each second.
SETTLE = 15
# Over a range Prometheus 2.42 moves what `predict_linear` reads with the time of evaluation, though it has an `@`.
FAULT = re.compile(r"predict_linear.*@")


# ---- the data


class Data:
    """The series of both tenants: each has a value for each second, whenever it is asked for."""

    def __init__(self) -> None:
        rng = random.Random(1)
        self.begin = int(time.time()) // STEP * STEP - STEP * SAMPLES
        self.rates = [(name, labels, rng.randrange(1, 40)) for name, labels in self.series()]

    @staticmethod
    def series() -> Iterator[tuple[str, str]]:
        """Names and labels, some of them such as JSON escapes and sorts in ways of its own."""
        for tenant in TENANTS:
            for job in ("api", "web", "d<b>&"):
                for instance in ("i1", "i2"):
                    labels = f'tenant="{tenant}",job="{job}",instance="{instance}"'
                    yield "up", labels
                    yield "memory_bytes", labels
                    yield "request_seconds_sum", labels
                    for code in ("200", "500"):
                        yield "http_requests_total", f'{labels},code="{code}"'
                    for bound in ("0.1", "1", "+Inf"):
                        yield "request_seconds_bucket", f'{labels},le="{bound}"'
                yield "memory_bytes", f'tenant="{tenant}",job="{job}",Zone="é\\"{job}"'

    def value(self, number: int, rate: int, moment: int) -> float | None:
        """A counter that resets, or a gauge; half of the gauges are not there half of the time."""
        name = self.rates[number][0]
        age = moment - self.begin
        if name in ("up", "memory_bytes"):
            is_gone = number % 2 == 1 and age // 4000 % 2 == 1
            return None if is_gone else (age // 30 * rate * 7919 % 1013) / 4
        return (age % (7000 + rate * 100)) * rate / 4

    def lines(self, moment: int, has_time: bool) -> Iterator[str]:
        """The samples of a moment."""
        for number, (name, labels, rate) in enumerate(self.rates):
            value = self.value(number, rate, moment)
            if value is not None:
                yield f"{name}{{{labels}}} {value}" + (f" {moment}" if has_time else "")

    def past(self) -> Iterator[str]:
        """The samples before the server starts, in the form of OpenMetrics: those of a series together."""
        by_name: dict[str, list[str]] = collections.defaultdict(list)
        for number in range(SAMPLES):
            for line in self.lines(self.begin + STEP * number, True):
                by_name[line.split("{")[0]].append(line)
        for lines in by_name.values():
            yield from lines
        yield "# EOF"


class Exporter(BaseHTTPRequestHandler):
    """Shows the samples of now."""

    data: Data

    def do_GET(self) -> None:
        """Answers."""
        text = "\n".join([*self.data.lines(int(time.time()), False), ""]).encode()
        self.send_response(200)
        self.send_header("Content-Type", "text/plain; charset=utf-8")
        self.send_header("Content-Length", str(len(text)))
        self.end_headers()
        self.wfile.write(text)

    def log_message(self, *_: object) -> None:
        """Says nothing."""


class Past(meaning.Series):  # type: ignore[misc]
    """All samples before the server starts, as one series of many names."""

    def __init__(self, data: Data) -> None:
        super().__init__("", {}, [])
        self.data = data

    def lines(self) -> Iterator[str]:
        """The lines of a file of OpenMetrics but its last."""
        for line in self.data.past():
            if line != "# EOF":
                yield line


def served(handler: type[BaseHTTPRequestHandler], stack: contextlib.ExitStack) -> int:
    """Starts a server of this process, and returns its port."""
    server = ThreadingHTTPServer(("127.0.0.1", 0), handler)
    server.daemon_threads = True
    threading.Thread(target=server.serve_forever, daemon=True).start()
    stack.callback(server.shutdown)
    return server.server_port


# ---- queries


class Asked(NamedTuple):
    """A range query as a client sends it."""

    query: str
    start: str
    end: str
    step: str

    def parameters(self, matcher: str = "") -> Mapping[str, str]:
        """What is sent: the query as it is, or enforced."""
        query = promql.enforce(self.query, matcher) if matcher else self.query
        return {"query": query, "start": self.start, "end": self.end, "step": self.step}


class Maker(meaning.Maker):  # type: ignore[misc]
    """Makes range queries within the day, most of which end a little before now, and some at or after now."""

    def __init__(self, rng: random.Random, begin: int) -> None:
        super().__init__(rng)
        self.begin = begin

    def matcher(self) -> str:
        """A matcher, most of which select something."""
        return str(self.rng.choice(('job="api"', 'job!="web"', 'instance="i1"', 'instance=~"i.*"', 'job=~"web|d<.*"', super().matcher())))

    def times(self) -> str:
        """Modifiers of a selector."""
        moment = f" @ {self.begin + self.rng.randrange(-1000, STEP * SAMPLES + 600_000) / 1.0:.3f}"
        at = self.rng.choice(("", "", "", "", " @ start()", " @ end()", moment))
        offset = self.rng.choice(("", "", "", f" offset {self.rng.choice(meaning.DURATIONS)}", f" offset -{self.rng.choice(meaning.DURATIONS)}"))
        return str(self.rng.choice((at + offset, offset + at)))

    def moment(self, moment: float) -> str:
        """A time, in one of the ways in which it can be sent."""
        exact = datetime.datetime.fromtimestamp(round(moment, 3), datetime.timezone.utc)
        return str(self.rng.choice((f"{moment:.0f}", f"{moment:.3f}", exact.isoformat(timespec="milliseconds").replace("+00:00", "Z"), f"{moment:.6f}")))

    def asked(self) -> Asked:
        """A query and its times."""
        query = self.query()
        while FAULT.search(query) or not is_accepted(query):
            query = self.query()
        step = self.rng.choice((15, 60, 60, 97, 300, 300, 1000, 0.5))
        length = min(self.rng.choice((600, 3600, 6 * 3600, 12 * 3600, 20 * 3600)), 10_000 * step)
        now = time.time()
        end = now - self.rng.choice((0, 0, -500, 30, 600, 3600, 7200, self.rng.randrange(0, 20_000)))
        end = end // step * step + self.rng.choice((0, 0, 0, 0.25, 7))
        return Asked(query, self.moment(max(end - length, self.begin)), self.moment(end), self.rng.choice((f"{step:g}", f"{step:g}s" if step >= 1 else "500ms")))


def is_accepted(query: str) -> bool:
    """Whether the proxy takes a query."""
    try:
        promql.enforce(query, 'tenant="a"')
    except promql.QueryError:
        return False
    return True


# ---- requests


class Client(threading.local):
    """Asks servers by a connection to each that it keeps."""

    def __init__(self) -> None:
        self.connections: dict[int, HTTPConnection] = {}

    def ask(self, port: int, parameters: Mapping[str, str], headers: Mapping[str, str] | None = None, path: str = RANGE) -> tuple[int, bytes]:
        """The status and the body of an answer."""
        target = f"{path}?{urllib.parse.urlencode(parameters)}" if parameters else path
        for _ in range(2):
            connection = self.connections.setdefault(port, HTTPConnection("127.0.0.1", port, timeout=60))
            try:
                connection.request("GET", target, headers=headers or {})
                response = connection.getresponse()
                return response.status, response.read()
            except (OSError, HTTPException):
                self.connections.pop(port).close()
        return 0, b""


client = Client()
AS_A = {"X-Tenant": "a"}


def counts_of(proxy: Proxy) -> dict[str, int]:
    """The counters of a proxy."""
    text = send(proxy.inside, request_text("GET", "/metrics")).body.decode()
    return {name: int(float(value)) for name, value in re.findall(r"^(\S+) (\S+)$", text, re.M) if name.startswith("promql_proxy")}


def parts_of(counts: Mapping[str, int], *results: str) -> int:
    """How many parts came to one of these results."""
    return sum(counts.get(f'promql_proxy_cache_parts_total{{result="{it}"}}', 0) for it in results)


def asked_upstream(counts: Mapping[str, int]) -> int:
    """How many answers a Prometheus gave."""
    return sum(count for name, count in counts.items() if name.startswith('promql_proxy_upstream_responses_total{server="prometheus"'))


def is_same(found: tuple[int, bytes], wanted: tuple[int, bytes]) -> bool:
    """Whether two answers are one, but for which series a message names."""
    if found[0] != 200 and found[0] == wanted[0]:
        return re.sub(rb'"error":.*', b"", found[1]) == re.sub(rb'"error":.*', b"", wanted[1])
    return found == wanted


class World:
    """The server with its data, and how proxies before it are made."""

    def __init__(self, program: str, stack: contextlib.ExitStack) -> None:
        self.program, self.stack = program, stack
        self.data = Exporter.data = Data()
        folder = Path(stack.enter_context(tempfile.TemporaryDirectory()))
        settings = (
            "scrape_configs:\n- job_name: live\n  honor_labels: true\n  scrape_interval: 1s\n"
            f"  static_configs:\n  - targets: ['127.0.0.1:{served(Exporter, stack)}']\n"
        )
        self.server = meaning.Prometheus(folder / "server", [Past(self.data)], settings)
        stack.callback(self.server.end)

    def proxy(self, *options: str, port: int = 0) -> Proxy:
        """Starts a proxy with a cache."""
        words = ["-cache", "-cache-split", "1h", "-cache-settle", f"{SETTLE}s", "-tenant-header", "X-Tenant", *options]
        made = Proxy(self.program, f"http://127.0.0.1:{port or self.server.port}", *words)
        self.stack.callback(self.end, made)
        return made

    @staticmethod
    def end(proxy: Proxy) -> None:
        """Ends a proxy, and looks at how it ended and what it wrote."""
        status, log = proxy.end()
        check("the proxy ends", status == 0, (status, log[-300:]))
        check("the log of the proxy has no panic", "panic" not in log, log[-300:])

    def same(self, name: str, proxy: Proxy, asked: Asked, counts: collections.Counter[str]) -> None:
        """Whether a query gets what the server gives, which may have more than one answer: data grows, and of equal values it takes any."""
        wanted: list[tuple[int, bytes]] = []
        for number in range(40):
            wanted.append(client.ask(self.server.port, asked.parameters('tenant="a"')))
            found = client.ask(proxy.port, asked.parameters(), AS_A)
            wanted.append(client.ask(self.server.port, asked.parameters('tenant="a"')))
            if any(is_same(found, it) for it in wanted[-2:]):
                break
            if number == 0:
                counts["with another answer at first"] += 1
        else:
            if len(set(wanted)) > 1:
                counts["left out, since the server has more than one answer"] += 1
                return
        counts["compared"] += 1
        counts["with a result"] += found[0] == 200 and b'"metric"' in found[1]
        counts["rejected by the server"] += found[0] != 200
        check(f"{name}: {asked}", any(is_same(found, it) for it in wanted[-2:]), difference(found[1], wanted[-1][1]))


def difference(found: bytes, wanted: bytes) -> object:
    """What is around the first byte that differs."""
    at = next((at for at, (one, other) in enumerate(zip(found, wanted)) if one != other), min(len(found), len(wanted)))
    return at, found[max(at - 100, 0) : at + 100], wanted[max(at - 100, 0) : at + 100]


# ---- the comparisons


def random_queries(world: World, count: int) -> None:
    """Random queries, twice each, and once more after all."""
    proxy, rng = world.proxy(), random.Random(7)
    maker = Maker(rng, world.data.begin)
    counts: collections.Counter[str] = collections.Counter()
    queries: list[Asked] = []
    while len(queries) < count:
        asked = maker.asked()
        if client.ask(world.server.port, asked.parameters('tenant="a"'))[0] != 200 and rng.random() < 0.95:
            continue
        queries.append(asked)
        for name in ("first", "second"):
            world.same(name, proxy, asked, counts)
    for asked in queries:
        world.same("third", proxy, asked, counts)
    told = counts_of(proxy)
    results = {name.split('"')[1]: number for name, number in told.items() if name.startswith("promql_proxy_cache_queries_total")}
    parts = {name.split('"')[1]: number for name, number in told.items() if name.startswith("promql_proxy_cache_parts_total")}
    print(", ".join(f"{key} {value}" for key, value in counts.items()))
    print(f"queries {results}, parts {parts}")
    check("there are hits", parts.get("hit", 0) > count and results.get("hit", 0) > 0, told)
    metrics_are_read(proxy)


# Queries that always have a result, over a whole number of parts and the last times, which are not final.
PLAIN = ("sum by (job) (rate(http_requests_total[5m]))", "memory_bytes", "avg_over_time(up[10m:1m])", "histogram_quantile(0.9, request_seconds_bucket)")


def plain(world: World, query: str, hours: int = 6, ago: int = 3600) -> Asked:
    """A query over some hours, up to some time ago."""
    end = int(time.time()) // 60 * 60 - ago
    return Asked(query, str(end - 3600 * hours), str(end), "60")


def many_clients(world: World) -> None:
    """Many clients at once: each part is asked for once, and each client gets the same."""
    proxy = world.proxy("-cache-parallel", "4")
    asked = [plain(world, it, 12) for it in PLAIN]
    wanted = [client.ask(world.server.port, it.parameters('tenant="a"')) for it in asked]
    before = counts_of(proxy)
    failed: list[object] = []

    def ask(number: int) -> None:
        for turn in range(len(asked)):
            at = (number + turn) % len(asked)
            found = client.ask(proxy.port, asked[at].parameters(), AS_A)
            if found != wanted[at]:
                failed.append((asked[at], found[0], difference(found[1], wanted[at][1])))

    threads = [threading.Thread(target=ask, args=(number,)) for number in range(64)]
    for it in threads:
        it.start()
    for it in threads:
        it.join()
    told = counts_of(proxy)
    upstream = asked_upstream(told) - asked_upstream(before)
    check("many clients get the same", not failed, failed[:1])
    missed, others = parts_of(told, "miss"), parts_of(told, "hit", "shared")
    print(f"64 clients with {len(asked)} queries: {upstream} parts of the server, {others} of the cache or of another's question")
    check("each part is asked for once", upstream == missed and 12 * len(asked) <= missed <= 13 * len(asked), told)
    check("all others come of the cache", missed + others == 64 * missed, told)


class Flaky(BaseHTTPRequestHandler):
    """Passes requests on to the server, and fails in the middle of some answers, in one way after the other."""

    port = 0
    ways: list[str] = []
    rng = random.Random(5)

    def do_GET(self) -> None:
        """Answers, or fails."""
        status, body = client.ask(self.port, {}, path=self.path)
        way = self.rng.choice(self.ways) if self.ways and "query_range" in self.path else ""
        cut = self.rng.randrange(len(body)) if body else 0
        if way == "status":
            status, body = 503, b'{"status":"error","errorType":"unavailable","error":"down"}'
        self.send_response(status)
        self.send_header("Content-Type", "application/json")
        self.send_header("Connection", "close")
        # Without a length the end of the connection is that of the answer: only its text says that it is half of one.
        if way != "no length":
            self.send_header("Content-Length", str(len(body)))
        self.end_headers()
        with contextlib.suppress(OSError):
            self.wfile.write(body[:cut] if way in ("length", "no length") else body)

    def log_message(self, *_: object) -> None:
        """Says nothing."""


def failing_server(world: World) -> None:
    """While a server fails in the middle of answers, and after that, no half of one is in an answer."""
    Flaky.port = world.server.port
    proxy = world.proxy(port=served(Flaky, world.stack))
    asked = [plain(world, query, hours) for query in PLAIN for hours in range(1, 9)]
    wanted = [client.ask(world.server.port, it.parameters('tenant="a"')) for it in asked]
    Flaky.ways = ["", "", "", "", "status", "length", "no length"]
    statuses: collections.Counter[int] = collections.Counter()
    for _ in range(4):
        for it, answer in zip(asked, wanted):
            try:
                found = client.ask(proxy.port, it.parameters(), AS_A)
            except (OSError, HTTPException):
                found = 0, b""
            statuses[found[0]] += 1
            # (what goes through as it is may be cut off on its way, as without a cache)
            is_so = found == answer or found[0] in (0, 502, 503) or not is_json(found[1])
            check("an answer while the server fails", is_so, (it, found[0], difference(found[1], answer[1])))
    Flaky.ways = []
    before = counts_of(proxy)
    for it, answer in zip(asked, wanted):
        found = client.ask(proxy.port, it.parameters(), AS_A)
        check("an answer after the server failed", found == answer, (it, found[0], difference(found[1], answer[1])))
    hits = parts_of(counts_of(proxy), "hit") - parts_of(before, "hit")
    print(f"a server that fails: statuses {dict(statuses)}, then {hits} hits")
    check("something failed, and something was kept", statuses[502] + statuses[503] > 5 and statuses[200] > 5 and hits > 20, statuses)


def is_json(text: bytes) -> bool:
    """Whether a text is JSON."""
    try:
        json.loads(text)
    except ValueError:
        return False
    return True


def tenants(world: World) -> None:
    """Two tenants ask the same, in turns: each gets its own, from the cache, too."""
    proxy = world.proxy("-set-header", "X-Scope-OrgID: {tenant}", "-shared-metric", "up")
    lists = world.proxy("-tenant-list")
    hostile = ('memory_bytes{tenant="b"}', 'memory_bytes or {tenant="b"}', '{__name__=~"mem.*",tenant=~"a|b"}', "sum by (tenant) (memory_bytes)")
    for _ in range(3):
        for query in (*PLAIN, *hostile):
            asked = plain(world, query, 3)
            for tenant in TENANTS:
                found = client.ask(lists.port, asked.parameters(), {"X-Tenant": tenant})
                wanted = client.ask(world.server.port, asked.parameters(f'tenant="{tenant}"'))
                check(f"tenant {tenant}: {query}", found == wanted, difference(found[1], wanted[1]))
                other = "b" if tenant == "a" else "a"
                check(f"tenant {tenant}: nothing of {other}", f'"tenant":"{other}"'.encode() not in found[1], found[1])
                found = client.ask(proxy.port, asked.parameters(), {"X-Tenant": tenant})
                check(f"tenant {tenant}: {query}, with a header", found == wanted or "up" in query, difference(found[1], wanted[1]))
            found = client.ask(lists.port, asked.parameters(), {"X-Tenant": "a,b"})
            wanted = client.ask(world.server.port, asked.parameters('tenant=~"a|b"'))
            check(f"both tenants: {query}", found == wanted, difference(found[1], wanted[1]))
    check("tenants have hits", parts_of(counts_of(lists), "hit") > 100, counts_of(lists))


# ---- a shared store


def memcached(stack: contextlib.ExitStack) -> int:
    """Starts a memcached, and returns its port."""
    port = free_port()
    words = ["memcached", "-l", "127.0.0.1", "-p", str(port), "-U", "0", "-m", "64", "-u", "nobody"]
    process = subprocess.Popen(words, stdout=subprocess.DEVNULL, stderr=subprocess.DEVNULL)
    stack.callback(process.wait, 30)
    stack.callback(process.terminate)
    for _ in range(100):
        with contextlib.suppress(OSError), socket.create_connection(("127.0.0.1", port)):
            return port
        time.sleep(0.05)
    raise SystemExit("memcached does not start")


class Liar(threading.Thread):
    """Stands before a memcached, and changes, cuts off, repeats or swaps what it answers."""

    def __init__(self, port: int) -> None:
        super().__init__(daemon=True)
        self.behind, self.rng, self.lies = port, random.Random(3), 0
        self.listener = socket.create_server(("127.0.0.1", 0))
        self.port = self.listener.getsockname()[1]
        self.last = b""

    def run(self) -> None:
        """Takes connections."""
        while True:
            connection, _ = self.listener.accept()
            threading.Thread(target=self.serve, args=(connection,), daemon=True).start()

    def serve(self, client_side: socket.socket) -> None:
        """Passes one connection on."""
        with client_side, socket.create_connection(("127.0.0.1", self.behind)) as server_side:
            threading.Thread(target=self.pump, args=(client_side, server_side), daemon=True).start()
            with contextlib.suppress(OSError):
                while text := server_side.recv(1 << 16):
                    client_side.sendall(self.lie(text))

    @staticmethod
    def pump(source: socket.socket, target: socket.socket) -> None:
        """Passes on what a client says."""
        with contextlib.suppress(OSError):
            while text := source.recv(1 << 16):
                target.sendall(text)

    def lie(self, text: bytes) -> bytes:
        """Something else, mostly."""
        way = self.rng.randrange(6)
        self.lies += way < 5
        at = self.rng.randrange(len(text))
        said, self.last = self.last or text, text
        return (text[:at], text[:at] + bytes([text[at] ^ 1]) + text[at + 1 :], text + text, said, text[:at] + b"\r\nEND\r\n", text)[way]


def shared_store(world: World) -> None:
    """What one proxy keeps in a memcached, another one has; and if the store lies or ends, answers stay right."""
    if shutil.which("memcached") is None:
        print("not tried: a shared store: there is no memcached here")
        return
    with contextlib.ExitStack() as stack:
        port = memcached(stack)
        first, second = (world.proxy("-cache-store", f"memcached://127.0.0.1:{port}") for _ in range(2))
        liar = Liar(port)
        liar.start()
        misled = world.proxy("-cache-store", f"memcached://127.0.0.1:{liar.port}")
        asked = [plain(world, query, hours) for query in PLAIN for hours in (2, 5)]
        for tenant in TENANTS:
            for name, proxy in (("first", first), ("second", second), *[("misled", misled)] * 10):
                for it in asked:
                    found = client.ask(proxy.port, it.parameters(), {"X-Tenant": tenant})
                    wanted = client.ask(world.server.port, it.parameters(f'tenant="{tenant}"'))
                    check(f"shared store, {name}, {tenant}: {it}", found == wanted, difference(found[1], wanted[1]))
                    if name == "misled":
                        # (after a failure the store is left alone for a second)
                        time.sleep(0.01)
        told = counts_of(second)
        print(f"a memcached: the second proxy has {parts_of(told, 'hit')} hits and asks for {parts_of(told, 'miss')} parts; {liar.lies} lies")
        check("the second proxy asks for nothing", parts_of(told, "hit") > 50 and parts_of(told, "miss") == 0, told)
        check("the store lied", liar.lies > 2 and counts_of(misled)["promql_proxy_cache_store_failures_total"] > 0, counts_of(misled))
    found = client.ask(first.port, asked[0].parameters(), AS_A)
    wanted = client.ask(world.server.port, asked[0].parameters('tenant="a"'))
    check("a store that has ended", found == wanted, difference(found[1], wanted[1]))


def metrics_are_read(proxy: Proxy) -> None:
    """The metrics, as the reader of Prometheus reads them."""
    text = send(proxy.inside, request_text("GET", "/metrics")).body
    read = subprocess.run(["promtool", "check", "metrics"], input=text, capture_output=True, check=False)
    check("the metrics", read.returncode == 0 and b"promql_proxy_cache_bytes" in text, (read.stdout, read.stderr))


# ---- what it costs


def seconds_of(process: Any) -> float:
    """The seconds of a processor that a process took so far."""
    words = Path(f"/proc/{process.pid}/stat").read_text().rsplit(")", 1)[1].split()
    return (int(words[11]) + int(words[12])) / os.sysconf("SC_CLK_TCK")


def measure(world: World) -> None:
    """Prints what a request takes of the processor in the proxy and in the server, where it goes through, is a hit and is a miss."""
    through = Proxy(world.program, f"http://127.0.0.1:{world.server.port}", "-tenant-header", "X-Tenant")
    world.stack.callback(world.end, through)
    proxy = world.proxy()
    number = 200
    for query in ("sum(rate(http_requests_total[5m]))", "memory_bytes"):
        asked = plain(world, query, 20)
        size = len(client.ask(proxy.port, asked.parameters(), AS_A)[1])
        # (a name of a label that is not there makes another line of the query)
        fresh = [asked._replace(query=query.replace("[5m]", f'{{x{it}=""}}[5m]') if "[" in query else f'{query}{{x{it}=""}}') for it in range(number)]
        for name, at, queries in (("through", through, [asked] * number), ("hit", proxy, [asked] * number), ("miss", proxy, fresh)):
            begun = seconds_of(at.process), seconds_of(world.server.process)
            for it in queries:
                check("an answer", client.ask(at.port, it.parameters(), AS_A)[0] == 200)
            took = [1000 * (seconds_of(it) - before) / number for it, before in zip((at.process, world.server.process), begun)]
            print(f"{query}, {size} bytes, {name}: {took[0]:.2f} ms in the proxy, {took[1]:.2f} ms in the server")


def main() -> int:
    """Runs all comparisons, or measures."""
    parser = argparse.ArgumentParser(description=__doc__)
    parser.add_argument("program")
    parser.add_argument("--count", type=int, default=1000, help="how many queries are made at random (%(default)s)")
    parser.add_argument("--measure", action="store_true", help="print what requests cost, and compare nothing")
    arguments = parser.parse_args()
    with contextlib.ExitStack() as stack:
        world = World(arguments.program, stack)
        if arguments.measure:
            measure(world)
            return checks.end()
        many_clients(world)
        failing_server(world)
        tenants(world)
        shared_store(world)
        random_queries(world, arguments.count)
    return checks.end()


if __name__ == "__main__":
    sys.exit(main())
