#!/usr/bin/env python3
"""Evaluates queries by a Prometheus as they are written, printed, laid out and enforced: bench/meaning/README.md."""
import argparse
import collections
import contextlib
import http.client
import json
import os
import pathlib
import random
import re
import socket
import subprocess
import sys
import tempfile
import time
import urllib.parse

TOP = pathlib.Path(__file__).resolve().parent.parent.parent
sys.path[:0] = [str(TOP / "bin"), str(TOP / "bindings" / "python")]
import promql  # noqa: E402
from checks import print_counts  # noqa: E402

BEGIN, STEP, SAMPLES = 1_700_000_000, 30, 240
NOW = BEGIN + STEP * (SAMPLES - 20)
MATCHER = 'tenant="a"'
TENANTS = ("a", "b")
# Calls whose results have labels of the matchers of their argument: at home they may differ.
SEES_MATCHERS = {"absent", "absent_over_time", "info"}


# ---- the stores


class Series:
    """A series of a store: its name, its labels and its samples."""

    def __init__(self, name, labels, samples):
        self.name, self.labels, self.samples = name, labels, samples

    def lines(self):
        labels = ",".join(f"{name}={json.dumps(value, ensure_ascii=False)}" for name, value in self.labels.items())
        for number, value in enumerate(self.samples):
            if value is not None:
                yield f"{self.name}{{{labels}}} {value} {BEGIN + STEP * number}"


def samples_of(rng, name):
    """A counter or a gauge, by its name; some have gaps."""
    if name.endswith(("_total", "_count", "_sum", "_bucket")):
        value, values = 0.0, []
        for _ in range(SAMPLES):
            value = 0.0 if rng.random() < 0.005 else value + rng.randint(0, 50) / 4
            values.append(value)
    else:
        values = [rng.randint(-40, 800) / 8 for _ in range(SAMPLES)]
    if rng.random() < 0.2:
        hole = rng.randrange(SAMPLES)
        values[hole : hole + 30] = [None] * len(values[hole : hole + 30])
    return values


def series_of(rng, queries):
    """Series that the queries select, for both tenants."""
    found = {}
    for job in ("api", "web", "db"):
        for instance in ("i1", "i2"):
            found["up", ("job", job), ("instance", instance)] = None
            for code in ("200", "404", "500"):
                found["http_requests_total", ("job", job), ("instance", instance), ("code", code)] = None
            for bound in ("0.1", "1", "10", "+Inf"):
                found["request_seconds_bucket", ("job", job), ("instance", instance), ("le", bound)] = None
            found["request_seconds_sum", ("job", job), ("instance", instance)] = None
            found["request_seconds_count", ("job", job), ("instance", instance)] = None
            found["memory_bytes", ("job", job), ("instance", instance)] = None
    for query in queries:
        for it in promql.collect(query)["selectors"]:
            labels = {"job": "api", "instance": "i1"}
            labels.update(wanted_labels(it["matchers"]))
            name = labels.pop("__name__", it["name"])
            if name and re.fullmatch(r"[a-zA-Z_:][a-zA-Z0-9_:]*", name):
                for instance in (labels["instance"], "i2"):
                    found[(name, *{**labels, "instance": instance}.items())] = None
    for name, *labels in found:
        for tenant in TENANTS:
            yield Series(name, {**dict(labels), "tenant": tenant}, samples_of(rng, name))


def wanted_labels(matchers):
    """Values of labels that the matchers of a selector allow, where that is plain to see."""
    tree = promql.parse("{x='1'," + matchers + "}") if matchers else {"matchers": []}
    for it in tree["matchers"]:
        if it["name"] == "tenant":
            continue
        if it["type"] == "=" and it["value"]:
            yield it["name"], it["value"]
        elif it["type"] == "=~":
            value = re.sub(r"\.[+*]", "x", it["value"].split("|")[0]).replace("..", "00").replace("\\", "")
            if re.fullmatch(r"[\w /-]+", value):
                yield it["name"], value


# ---- queries made at random

VECTOR_FUNCTIONS = (
    "abs ceil floor exp ln log2 log10 sqrt sgn sort sort_desc timestamp sin cos tan asin acos atan sinh cosh tanh asinh acosh atanh "
    "deg rad minute hour day_of_month day_of_week day_of_year days_in_month month year absent"
).split()
MATRIX_FUNCTIONS = (
    "rate increase delta irate idelta deriv changes resets avg_over_time min_over_time max_over_time sum_over_time count_over_time "
    "stddev_over_time stdvar_over_time last_over_time present_over_time absent_over_time"
).split()
LABELS = ("job", "instance", "code", "le", "tenant", "other")
NAMES = ("up", "http_requests_total", "request_seconds_bucket", "request_seconds_sum", "memory_bytes")
VALUES = ("api", "web", "db", "i1", "i2", "200", "500", "a", "b", "none", "")
DURATIONS = ("30s", "1m", "5m", "1h", "90s", "1m30s")


class Maker:
    """Makes well typed queries at random, by all functions and operators of Prometheus 2.42."""

    def __init__(self, rng):
        self.rng = rng

    def one(self, *makers):
        return self.rng.choice(makers)()

    def name(self):
        return self.rng.choice(NAMES)

    def labels(self):
        return ", ".join(self.rng.sample(LABELS, self.rng.randint(0, 3)))

    def matcher(self):
        label, value = self.rng.choice(LABELS), self.rng.choice(VALUES)
        return self.rng.choice((f'{label}="{value}"', f"{label}!='{value}'", f'{label}=~"{value}|x.*"', f"{label}!~`{value}.+`"))

    def selector(self):
        matchers = [self.matcher() for _ in range(self.rng.choice((0, 0, 1, 2, 3)))]
        if self.rng.random() < 0.1:
            return "{" + ",".join([f'__name__=~"{self.name()}|up"', *matchers]) + "}"
        return self.name() + (" { " + " ,".join(matchers) + self.rng.choice(("", ",")) + "}" if matchers else self.rng.choice(("", "{}")))

    def times(self):
        at = self.rng.choice(("", "", "", " @ start()", " @ end()", f" @ {BEGIN + 3000}", f" @ {BEGIN + 3000}.5"))
        offset = self.rng.choice(("", "", f" offset {self.rng.choice(DURATIONS)}", f" offset -{self.rng.choice(DURATIONS)}"))
        return self.rng.choice((at + offset, offset + at))

    def instant(self, depth):
        if depth <= 0:
            return self.selector() + self.times()
        less = depth - 1
        return self.one(
            lambda: self.selector() + self.times(),
            lambda: f"({self.instant(less)})",
            lambda: f"-{self.instant(0)}",
            lambda: f"{self.rng.choice(VECTOR_FUNCTIONS)}({self.instant(less)})",
            lambda: f"{self.rng.choice(MATRIX_FUNCTIONS)}({self.matrix(less)})",
            lambda: self.call(less),
            lambda: self.aggregation(less),
            lambda: self.aggregation(less),
            lambda: self.operation(less),
            lambda: self.operation(less),
            lambda: self.with_scalar(less),
        )

    def matrix(self, depth):
        if depth <= 0 or self.rng.random() < 0.7:
            return f"{self.selector()}[{self.rng.choice(DURATIONS)}]{self.times()}"
        step = self.rng.choice(("", "1m", "30s"))
        inner = self.instant(depth - 1)
        return f"({inner})[{self.rng.choice(('5m', '10m'))}:{step}]{self.times()}"

    def scalar(self, depth):
        return self.one(
            lambda: self.rng.choice(("1", "0.5", "1e3", "0x1F", "-2", "Inf", "017", ".5")),
            lambda: "time()",
            lambda: "pi()",
            lambda: f"scalar({self.instant(depth - 1)})" if depth > 0 else "2",
        )

    def call(self, depth):
        return self.one(
            lambda: f"clamp({self.instant(depth)}, {self.scalar(0)}, {self.scalar(0)})",
            lambda: f"clamp_max({self.instant(depth)}, {self.scalar(depth)})",
            lambda: f"clamp_min({self.instant(depth)}, {self.scalar(depth)})",
            lambda: f"round({self.instant(depth)}, {self.rng.choice(('5', '0.1'))})",
            lambda: f"histogram_quantile({self.rng.choice(('0.9', '.5'))}, {self.instant(depth)})",
            lambda: f"quantile_over_time(0.9, {self.matrix(depth)})",
            lambda: f"holt_winters({self.matrix(depth)}, 0.5, 0.5)",
            lambda: f"predict_linear({self.matrix(depth)}, 3600)",
            lambda: f"vector({self.scalar(depth)})",
            lambda: f'label_replace({self.instant(depth)}, "other", "x-$1", "job", "(.)(.*)")',
            lambda: f"label_join({self.instant(depth)}, 'other', \"-\", 'job', 'instance')",
        )

    def aggregation(self, depth):
        clause = self.rng.choice(("", f" by ({self.labels()})", f" without ({self.labels()})"))
        inner = self.instant(depth)
        plain = self.rng.choice("sum avg min max count group stddev stdvar".split())
        name, arguments = self.rng.choice(
            (
                *[(plain, inner)] * 5,
                ("topk", f"2, {inner}"),
                ("bottomk", f"1, {inner}"),
                ("quantile", f"0.9, {inner}"),
                ("count_values", f'"value", {inner}'),
            )
        )
        return self.rng.choice((f"{name}{clause} ({arguments})", f"{name}({arguments}){clause}"))

    def operation(self, depth):
        operator = self.rng.choice("+ - * / % ^ == != > < >= <= and or unless atan2".split())
        left, right = self.instant(depth), self.instant(depth)
        if self.rng.random() < 0.5:
            left, right = f"sum by (job) ({left})", f"sum by (job) ({right})"
        matching = self.rng.choice(("", "", f" on ({self.labels()})", f" ignoring ({self.labels()})"))
        if operator in "and or unless".split():
            return f"({left}) {operator}{matching} ({right})"
        flag = " bool" if operator in "== != > < >= <=".split() and self.rng.random() < 0.4 else ""
        grouping = self.rng.choice(("", "", " group_left ()", " group_right (code)")) if matching and "code" not in matching else ""
        return f"({left}) {operator}{flag}{matching}{grouping} ({right})"

    def with_scalar(self, depth):
        operator = self.rng.choice("+ - * / % ^ == != > < >= <= atan2".split())
        sides = [f"({self.instant(depth)})", self.scalar(depth)]
        self.rng.shuffle(sides)
        return f" {operator} ".join(sides)

    def query(self):
        return self.one(lambda: self.instant(3), lambda: self.instant(3), lambda: self.matrix(2), lambda: self.scalar(2))


# ---- a server


class Prometheus:
    """A server on this machine with a store, and with the settings of its configuration file."""

    def __init__(self, folder, series, settings="global: {}\n", more_options=()):
        folder.mkdir()
        lines = folder / "samples.txt"
        with lines.open("w") as file:
            for it in sorted(series, key=lambda it: it.name):
                file.writelines(f"{line}\n" for line in it.lines())
            file.write("# EOF\n")
        data = folder / "data"
        made = subprocess.run(["promtool", "tsdb", "create-blocks-from", "openmetrics", lines, data], capture_output=True, text=True, check=False)
        if made.returncode != 0:
            raise SystemExit(f"promtool: {made.stdout}{made.stderr}")
        (folder / "prometheus.yml").write_text(settings)
        with socket.socket() as free:
            free.bind(("127.0.0.1", 0))
            self.port = free.getsockname()[1]
        options = [f"--config.file={folder}/prometheus.yml", f"--storage.tsdb.path={data}", f"--web.listen-address=127.0.0.1:{self.port}"]
        options += ["--storage.tsdb.retention.time=100y", "--log.level=error", *more_options]
        self.process = subprocess.Popen(["prometheus", *options], stdout=subprocess.DEVNULL, stderr=subprocess.DEVNULL)
        self.connection = None
        for _ in range(200):
            with contextlib.suppress(OSError, http.client.HTTPException):
                if self.get("/-/ready")[0] == 200:
                    return
            time.sleep(0.1)
        self.end()
        raise SystemExit("the server does not start")

    def get(self, path):
        if self.connection is None:
            self.connection = http.client.HTTPConnection("127.0.0.1", self.port, timeout=60)
        try:
            self.connection.request("GET", path)
            response = self.connection.getresponse()
            return response.status, response.read()
        except (OSError, http.client.HTTPException):
            self.connection = None
            raise

    def evaluate(self, query):
        """What the query gives at one time and over a range, in an order of its own, or why it gives nothing."""
        ranged = urllib.parse.urlencode({"query": query, "start": NOW - 1200, "end": NOW, "step": 120})
        return result(self.get("/api/v1/query?" + urllib.parse.urlencode({"query": query, "time": NOW}))), result(self.get("/api/v1/query_range?" + ranged))

    def end(self):
        self.process.terminate()
        self.process.wait(30)


def result(response):
    """Series in an order of their own, each number with ten digits: the server adds in no fixed order, and so rounds in none."""
    value = json.loads(response[1])
    if value["status"] != "success":
        # (a message may show the query)
        return "error", value["errorType"]
    data = value["data"]
    found = data["result"]
    if data["resultType"] in ("vector", "matrix"):
        found = sorted((json.dumps(rounded(it), sort_keys=True) for it in found))
    return data["resultType"], json.dumps(found)


def rounded(value):
    if isinstance(value, dict):
        return {key: rounded(it) for key, it in value.items()}
    if isinstance(value, list):
        return [rounded(it) for it in value]
    if isinstance(value, str) and re.fullmatch(r"-?[0-9.]+(?:e[-+]?[0-9]+)?", value):
        return f"{float(value):.10g}"
    return value


def is_empty(found):
    return all(it[0] != "error" and it[1] == "[]" for it in found)


# ---- the comparison


def compare(query, both, own, counts, differences):
    """The laws of docs/guide/meaning.md, of one query."""

    def is_settled():
        """Whether the server gives one answer: of equal values `topk` and `bottomk` take any, another one each time."""
        return all(len({str(server.evaluate(text)) for _ in range(8)}) == 1 for server in (both, own) for text in (query, enforced))

    def equal(law, first, second, *texts):
        if first != second and not is_settled():
            counts["left out, since the server has more than one answer"] += 1
            return
        counts[law] += 1
        if first != second:
            differences.append((law, query, texts, first, second))

    printed, enforced = promql.canonical(query), promql.enforce(query, MATCHER)
    texts = [printed, promql.pretty(query, width=40), promql.pretty(query, width=100)]
    written = {server: server.evaluate(query) for server in (both, own)}
    counts["queries"] += 1
    if written[both][0] == ("error", "bad_data"):
        # It is not of the server's language: no law speaks of it.
        counts["rejected by the server"] += 1
        return
    for server in (both, own):
        for text in texts:
            equal("printed", server.evaluate(text), written[server], text)
    at_both, at_home = both.evaluate(enforced), own.evaluate(enforced)
    equal("enforced", at_both, at_home, enforced)
    if not SEES_MATCHERS & set(promql.collect(query)["functions"]):
        equal("at home", at_home, written[own], enforced)
    counts["with a result"] += not is_empty(written[both])
    counts["that the other tenant changes"] += written[both] != written[own]


def listed_queries():
    """Those of bench/queries, and the texts of rows that are accepted."""
    for line in (TOP / "bench" / "queries" / "queries.txt").read_text().splitlines():
        if line:
            yield line
    for rows in sorted((TOP / "rows").glob("*.tsv")):
        if rows.stem in ("heights", "large", "late", "limits", "lists", "batch"):
            continue
        for row in rows.read_text().splitlines():
            parts = row.split("\t")
            if len(parts) >= 4 and parts[0] == "line" and parts[2] == "0" and not parts[1].startswith("="):
                yield json.loads(parts[1]) if parts[1].startswith('"') else parts[1]


# Prometheus reads such an escape as a byte (docs/DIFFERENCES.md), so no law speaks of it.
_BYTE_ESCAPE = re.compile(r"\\(?:x[89a-fA-F]|[23][0-7]{2})")
# Prometheus has a zero below zero, too (docs/DIFFERENCES.md): so `1 / -0.0` is -Inf there, and what is printed of it is not.
_NEGATIVE_ZERO = re.compile(r"-\s*(?:0x0+|(?:0+\.?0*|\.0+)(?:[eE][+-]?[0-9]+)?)(?![\w.])")


def accepted(queries):
    for query in dict.fromkeys(queries):
        with contextlib.suppress(ValueError):
            promql.enforce(query, MATCHER)
            if len(query) < 4000 and not _BYTE_ESCAPE.search(query) and not _NEGATIVE_ZERO.search(query):
                yield query


def main():
    parser = argparse.ArgumentParser(description=__doc__)
    parser.add_argument("--random", type=int, default=500, help="how many queries are made at random (%(default)s)")
    parser.add_argument("--rows", type=int, default=500, help="how many of the queries of rows/ and bench/queries are tried (%(default)s)")
    parser.add_argument("--seed", type=int, default=1)
    arguments = parser.parse_args()
    rng = random.Random(arguments.seed)
    maker = Maker(rng)
    listed = list(accepted(listed_queries()))
    listed = rng.sample(listed, min(len(listed), arguments.rows))
    made = list(accepted(maker.query() for _ in range(arguments.random)))
    counts, differences = collections.Counter(), []
    with tempfile.TemporaryDirectory() as folder, contextlib.ExitStack() as stack:
        series = list(series_of(rng, listed))
        both = Prometheus(pathlib.Path(folder, "both"), series)
        stack.callback(both.end)
        own = Prometheus(pathlib.Path(folder, "own"), [it for it in series if it.labels["tenant"] == "a"])
        stack.callback(own.end)
        for name, queries in (("listed", listed), ("made", made)):
            before = counts.copy()
            for query in queries:
                compare(query, both, own, counts, differences)
            told = counts - before
            print(f"{name}: " + ", ".join(f"{key} {value}" for key, value in told.items()), flush=True)
    for law, query, texts, first, second in differences:
        print(f"FAILED {law}: {query!r}\n    {texts}\n    {str(first)[:300]}\n    {str(second)[:300]}")
    compared = sum(counts[law] for law in ("printed", "enforced", "at home"))
    return print_counts(compared - len(differences), len(differences))


if __name__ == "__main__":
    os.environ.pop("http_proxy", None)
    sys.exit(main())
