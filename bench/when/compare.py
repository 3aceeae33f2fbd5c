#!/usr/bin/env python3
"""Evaluates queries by a Prometheus that has only the samples within their windows: bench/when/README.md."""

from __future__ import annotations

import argparse
import collections
import contextlib
import json
import os
import pathlib
import random
import re
import sys
import tempfile
import urllib.parse
from typing import Counter, Dict, Iterator, List, NamedTuple, Optional, Tuple

TOP = pathlib.Path(__file__).resolve().parent.parent.parent
sys.path[:0] = [str(TOP / "bench" / "meaning"), str(TOP / "bin"), str(TOP / "bindings" / "python")]
import compare as meaning  # noqa: E402
import promql  # noqa: E402
import remote  # noqa: E402
from checks import print_counts  # noqa: E402

# Samples of three hours, one each 20 seconds, some of them a little later.
BEGIN, STEP, SAMPLES = 1_700_000_000, 20, 540
END = BEGIN + STEP * SAMPLES
# Each selector has a metric of its own, so its names in the text are the selectors in their order.
NAME = re.compile(r"m[0-9]+_[0-9]+")
# Prometheus 2.42 leaves out the offset of a selector with `@` in `timestamp`, and over a range `predict_linear` moves what has an `@` with
# the time of evaluation.
TIMES = r"(?: (?:@ (?:start\(\)|end\(\)|[0-9.]+)|offset -?[0-9a-z]+))*"
TIMESTAMP = re.compile(r"timestamp\(\(*m[0-9_]+(?:\{[^}]*\})?(" + TIMES + ")")


class Asked(NamedTuple):
    """A query, with times in milliseconds, and the name of the metric of each of its selectors."""

    query: str
    start: int
    end: int
    step: int
    names: List[str]


class Told(NamedTuple):
    """What is told of a query: the windows of its selectors, the pinned query and the last time that it reads at its last time."""

    windows: List[Optional[Tuple[int, int]]]
    pinned: str
    last: Optional[int]


# ---- queries


class Maker(meaning.Maker):
    """Makes queries whose times lie before, in and after those of the samples. Each selector has a metric of its own."""

    def __init__(self, rng: random.Random) -> None:
        super().__init__(rng)
        self.queries = self.selectors = 0

    def selector(self) -> str:
        name = f"m{self.queries}_{self.selectors}"
        self.selectors += 1
        return name + self.rng.choice(("", "", '{job="api"}', '{job!="web"}'))

    def moment(self) -> str:
        return f" @ {self.rng.randrange(BEGIN * 1000 - 600_000, END * 1000 + 600_000) / 1000:.3f}"

    def times(self) -> str:
        at = self.rng.choice(("", "", "", " @ start()", " @ end()", self.moment()))
        length = self.rng.choice(("30s", "1m", "7m", "1h", "90s", "1m1s1ms"))
        offset = self.rng.choice(("", "", f" offset {length}", f" offset -{length}"))
        return self.rng.choice((at + offset, offset + at))

    def matrix(self, depth: int) -> str:
        length = self.rng.choice(("30s", "1m", "5m", "90s", "13m", "1h"))
        if depth <= 0 or self.rng.random() < 0.5:
            return f"{self.selector()}[{length}]{self.times()}"
        step = self.rng.choice(("", "1m", "30s", "7m", "1h", "41s"))
        return f"({self.instant(depth - 1)})[{self.rng.choice(('5m', '10m', length))}:{step}]{self.times()}"

    def asked(self) -> Asked:
        query = self.instant(3)
        while is_at_fault(query):
            query = self.instant(3)
        self.queries += 1
        names = NAME.findall(query)
        start = self.rng.randrange(BEGIN * 1000 + 1_800_000, END * 1000 - 1_800_000)
        if self.rng.random() < 0.3:
            return Asked(query, start, start, 0, names)
        step = self.rng.choice((15_000, 60_000, 97_000, 600_000))
        return Asked(query, start, start + self.rng.randrange(0, 1_800_000), step, names)


def is_at_fault(query: str) -> bool:
    """Whether Prometheus 2.42 may have a wrong answer."""
    if "predict_linear" in query and "@" in query:
        return True
    return any("@" in times and "offset" in times for times in TIMESTAMP.findall(query))


# ---- what is told


def told(asked: Asked) -> Optional[Told]:
    """What the library tells of a query, by the windows of Prometheus 2. Nothing of one that the rules do not accept."""
    try:
        windows = promql.windows(asked.query, asked.start, asked.end, asked.step, left_open=False)
    except promql.QueryError:
        return None
    return Told(
        [None if it.first is None or it.last is None else (it.first, it.last) for it in windows],
        promql.pinned(asked.query, asked.start, asked.end),
        promql.last_read(asked.query, last_time(asked), asked.start, asked.end, left_open=False),
    )


def last_time(asked: Asked) -> int:
    """The last time of a query."""
    return asked.start if asked.step == 0 else asked.start + (asked.end - asked.start) // asked.step * asked.step


# ---- stores


class Series(meaning.Series):
    """A series with a time for each sample, in milliseconds."""

    def __init__(self, name: str, labels: Dict[str, str], samples: List[Tuple[int, float]]) -> None:
        super().__init__(name, labels, [])
        self.timed = samples

    def lines(self) -> Iterator[str]:
        labels = ",".join(f'{name}="{value}"' for name, value in self.labels.items())
        for time, value in self.timed:
            yield f"{self.name}{{{labels}}} {value} {time / 1000:.3f}"


def series_of(rng: random.Random, name: str) -> Iterator[Series]:
    for job in ("api", "web"):
        value, samples = 0.0, []
        for number in range(SAMPLES):
            value = 0.0 if rng.random() < 0.01 else value + rng.randint(0, 40) / 4
            if rng.random() < 0.97:
                samples.append(((BEGIN + STEP * number) * 1000 + rng.choice((0, 0, 0, 1, 250)), value))
        yield Series(name, {"job": job}, samples)


def until(series: Series, last: Optional[int]) -> Series:
    return Series(series.name, series.labels, [] if last is None else [it for it in series.timed if it[0] <= last])


def within(series: Series, window: Optional[Tuple[int, int]]) -> remote.Stored:
    kept = [it for it in series.timed if window and window[0] <= it[0] <= window[1]]
    return remote.Stored({"__name__": series.name, **series.labels}, kept)


# ---- the comparison


def get(server: meaning.Prometheus, query: str, start: int, end: int, step: int) -> Tuple[int, bytes]:
    """The server's answer; for an instant query the step is 0."""
    if step == 0:
        values = {"query": query, "time": f"{start / 1000:.3f}"}
        return server.get("/api/v1/query?" + urllib.parse.urlencode(values))
    values = {"query": query, "start": f"{start / 1000:.3f}", "end": f"{end / 1000:.3f}", "step": f"{step / 1000:.3f}"}
    return server.get("/api/v1/query_range?" + urllib.parse.urlencode(values))


def evaluate(server: meaning.Prometheus, asked: Asked) -> Tuple[str, str]:
    return meaning.result(get(server, asked.query, asked.start, asked.end, asked.step))


def in_parts(server: meaning.Prometheus, asked: Asked, query: str) -> Tuple[str, str]:
    """What the query gives over the first half of the times and over the others, joined."""
    half = asked.start + (asked.end - asked.start) // asked.step // 2 * asked.step
    series: Dict[str, dict] = {}
    for start, end in ((asked.start, half), (half + asked.step, asked.end)):
        if start > end:
            continue
        response = get(server, query, start, end, asked.step)
        data = json.loads(response[1])
        if data["status"] != "success":
            return meaning.result(response)
        for it in data["data"]["result"]:
            key = json.dumps(it["metric"], sort_keys=True)
            series.setdefault(key, {"metric": it["metric"], "values": []})["values"].extend(it["values"])
    joined = {"status": "success", "data": {"resultType": "matrix", "result": list(series.values())}}
    return meaning.result((200, json.dumps(joined).encode()))


def is_settled(server: meaning.Prometheus, asked: Asked) -> bool:
    """Whether the server gives one answer: of equal values `topk` and `bottomk` take any, another one each time."""
    return len({evaluate(server, asked) for _ in range(40)}) == 1


def compare(servers: List[meaning.Prometheus], asked: Asked, answer: Told, counts: Counter[str], failed: List[Tuple]) -> None:
    everything, windowed = (evaluate(it, asked) for it in servers[:2])
    counts["queries"] += 1
    if everything[0] == "error":
        counts["rejected by the server"] += 1
        return
    counts["with a result"] += everything[1] != "[]"
    found = {"within windows": windowed, "pinned": evaluate(servers[0], asked._replace(query=answer.pinned))}
    if asked.step > 0:
        counts["range queries"] += 1
        found["pinned, in parts"] = in_parts(servers[0], asked, answer.pinned)
        counts["that differ in parts where they are not pinned"] += in_parts(servers[0], asked, asked.query) != everything
    for law, other in found.items():
        tell(law, servers[:2], asked, everything, other, counts, failed)
    # (the pinned query, since the times of `@ start()` and `@ end()` are those of the whole query)
    at_last = Asked(answer.pinned, last_time(asked), last_time(asked), 0, asked.names)
    now, later = (evaluate(servers[it], at_last) for it in (2, 0))
    tell("final", [servers[0], servers[2]], at_last, later, now, counts, failed)


def count_reads(windowed: remote.RemoteRead, asked: Asked, answer: Told, counts: Counter[str], failed: List[Tuple]) -> None:
    """Compares each window with the times for which the server asks its storage: it reads nothing else."""
    reads = remote.widest(windowed.reads)
    windowed.reads.clear()
    for name, window in zip(asked.names, answer.windows):
        if name not in reads or window is None:
            continue
        counts["windows within what the server asks for"] += 1
        counts["that are narrower"] += window != reads[name]
        if not reads[name][0] <= window[0] <= window[1] <= reads[name][1]:
            failed.append(("windows within what the server asks for", asked, (name, window), reads[name]))


def tell(
    law: str, servers: List[meaning.Prometheus], asked: Asked, wanted: Tuple[str, str], got: Tuple[str, str], counts: Counter[str],
    failed: List[Tuple],
) -> None:
    """Counts a comparison, and keeps it where it fails."""
    if got != wanted and not all(is_settled(it, asked) for it in servers):
        counts["left out, since the server has more than one answer"] += 1
        return
    counts[law] += 1
    if got != wanted:
        failed.append((law, asked, wanted, got))


def main() -> int:
    parser = argparse.ArgumentParser(description=__doc__)
    parser.add_argument("--count", type=int, default=2000, help="how many queries are made at random (%(default)s)")
    parser.add_argument("--seed", type=int, default=1)
    arguments = parser.parse_args()
    rng = random.Random(arguments.seed)
    maker = Maker(rng)
    queries = [maker.asked() for _ in range(arguments.count)]
    answers = [told(it) for it in queries]
    counts: Counter[str] = collections.Counter()
    counts["not accepted here"] = sum(it is None for it in answers)
    asked_and_told = [(asked, answer) for asked, answer in zip(queries, answers) if answer]
    failed: List[Tuple] = []
    whole, known = [], []
    cut: Dict[str, List[remote.Stored]] = collections.defaultdict(list)
    for asked, answer in asked_and_told:
        if len(asked.names) != len(answer.windows):
            raise SystemExit(f"{asked.query}: {len(answer.windows)} windows")
        for name, span in zip(asked.names, answer.windows):
            for series in series_of(rng, name):
                whole.append(series)
                cut[name].append(within(series, span))
                known.append(until(series, answer.last))
    counts["samples"] = sum(len(it.timed) for it in whole)
    counts["samples within windows"] = sum(len(it.samples) for store in cut.values() for it in store)
    with tempfile.TemporaryDirectory() as folder, contextlib.ExitStack() as stack:
        windowed = remote.RemoteRead(cut)
        stack.callback(windowed.end)
        servers = []
        for name, store, settings in (("whole", whole, "global: {}\n"), ("windowed", [], windowed.settings()), ("known", known, "global: {}\n")):
            servers.append(meaning.Prometheus(pathlib.Path(folder, name), store, settings))
            stack.callback(servers[-1].end)
        for asked, answer in asked_and_told:
            compare(servers, asked, answer, counts, failed)
            count_reads(windowed, asked, answer, counts, failed)
    print(", ".join(f"{key} {value}" for key, value in counts.items()))
    for law, asked, wanted, got in failed:
        print(f"FAILED {law}: {asked}\n    {str(wanted)[:300]}\n    {str(got)[:300]}")
    passed = sum(counts[law] for law in ("within windows", "pinned", "pinned, in parts", "final", "windows within what the server asks for"))
    return print_counts(passed - len(failed), len(failed))


if __name__ == "__main__":
    os.environ.pop("http_proxy", None)
    sys.exit(main())
