#!/usr/bin/env python3
"""Holds `promql-rules check --prometheus` and `promql-rules metrics` against a Prometheus whose store is known: which selectors of random
queries select nothing, why, how much each reads, and which metrics nothing uses.

usage: bindings/live.py [COUNT] [SEED]   with prometheus and promtool on the path. The last line is 'N passed, M failed'
"""

import contextlib
import json
import random
import re
import subprocess
import sys
import tempfile
import time
from collections.abc import Iterator, Mapping, Sequence
from pathlib import Path
from typing import NamedTuple, Optional

ROOT = Path(__file__).resolve().parents[1]
sys.path[:0] = [str(ROOT / "bin"), str(ROOT / "bench" / "meaning"), str(ROOT / "bindings")]
from checks import Checks  # noqa: E402
from compare import Prometheus  # type: ignore[import] # noqa: E402
from proxy_servers import PASSWORD, PASSWORD_HASH  # noqa: E402

STEP = 30
# Samples from so many seconds ago on.
AGE = 7_200
VALUES: Mapping[str, Sequence[str]] = {"job": ("api", "web", "db"), "instance": ("i1", "i2"), "code": ("200", "404"), "zone": ("",)}
NAMES = ("up", "http_requests_total", "go_info", "batch_total", "nope", "job:up:sum", "a_b_bytes")
checks = Checks(most=20)


class Series(NamedTuple):
    """A series of the store: its name, its labels, and when it has samples, in seconds from now."""

    name: str
    labels: Mapping[str, str]
    begin: int
    end: int

    def lines(self) -> Iterator[str]:
        """Its samples, as OpenMetrics has them."""
        labels = ",".join(f'{name}="{value}"' for name, value in self.labels.items())
        for at in range(NOW + self.begin, NOW + self.end, STEP):
            yield f"{self.name}{{{labels}}} 1 {at}"

    def samples(self, window: int) -> int:
        """How many of the last so many seconds."""
        return sum(NOW - window < at <= NOW for at in range(NOW + self.begin, NOW + self.end, STEP))


NOW = int(time.time())
STORE = [
    *(Series("up", {"job": job, "instance": instance}, -AGE, AGE) for job in VALUES["job"][:2] for instance in VALUES["instance"]),
    *(Series("http_requests_total", {"job": job, "code": "200"}, -AGE, AGE) for job in VALUES["job"]),
    Series("go_info", {}, -AGE, AGE),
    Series("batch_total", {"job": "db"}, -AGE, -AGE // 2),
    Series("a_b_bytes", {"job": "api"}, -AGE, AGE),
    Series("unused_bytes", {"job": "web"}, -AGE, AGE),
]


class Matcher(NamedTuple):
    """A matcher of a selector."""

    label: str
    operator: str
    value: str

    def fits(self, labels: Mapping[str, str]) -> bool:
        """Whether a series with these labels has it."""
        value = labels.get(self.label, "")
        found = re.fullmatch(self.value, value) is not None if "~" in self.operator else value == self.value
        return found != self.operator.startswith("!")

    def __str__(self) -> str:
        return f'{self.label}{self.operator}"{self.value}"'


def selected(name: Optional[str], matchers: Sequence[Matcher]) -> list[Series]:
    """The series of the store that a selector selects, whenever they have samples."""
    return [it for it in STORE if (name is None or it.name == name) and all(matcher.fits({**it.labels, "__name__": it.name}) for matcher in matchers)]


def why_empty(name: Optional[str], matchers: Sequence[Matcher]) -> str:
    """The code for a selector that selects nothing."""

    def is_there(*some: Matcher) -> bool:
        return any(it.samples(300) for it in selected(name, some))

    if name is not None and not is_there():
        return "" if name == "job:up:sum" else "P801"
    for matcher in matchers:
        if not is_there(matcher) and (name is not None or not matcher.fits({})):
            return "P803" if is_there(Matcher(matcher.label, "!=", "")) else "P802"
    return "P804"


def random_selector(rng: random.Random) -> tuple[str, list[str], int, int]:
    """A selector or one of a range, the codes that are to be found of it, and how many series and samples it reads."""
    name = rng.choice(NAMES) if rng.random() < 0.9 else None
    matchers = []
    for label in rng.sample(sorted(VALUES), rng.choice((0, 1, 1, 2, 3))):
        value = rng.choice((*VALUES[label], "x"))
        pattern = rng.choice((f"{value}|y", ".*", ".+", f"{value}.*", ""))
        operator = rng.choice(("=", "=", "=", "!=", "=~", "!~"))
        matchers.append(Matcher(label, operator, pattern if "~" in operator else value))
    matchers.sort()
    if name is None and all(it.fits({}) for it in matchers):
        return random_selector(rng)
    window = rng.choice((0, 0, 60, 300, 3600, 7000))
    text = f"{name or ''}{{{','.join(map(str, matchers))}}}" + (f"[{window}s]" if window else "")
    series = selected(name, matchers)
    is_empty = not any(it.samples(max(window, 300)) for it in series)
    code = why_empty(name, matchers) if is_empty else ""
    there = [it for it in series if it.samples(300)]
    samples = sum(it.samples(window) for it in series) if window else len(there)
    return f"rate({text})" if window else text, [code] if code else [], len(there), samples


def run(*words: object) -> subprocess.CompletedProcess[str]:
    """Runs the command."""
    return subprocess.run([sys.executable, "-m", "promql", *map(str, words)], capture_output=True, text=True, timeout=200, check=False)


def random_selectors(folder: Path, url: str, rng: random.Random, count: int) -> None:
    """What is found of each, and what each reads, is what the store says."""
    made = [random_selector(rng) for _ in range(count)]
    rules = [{"record": "job:up:sum", "expr": "sum by (job) (up)"}, *({"alert": f"A{number}", "expr": it[0]} for number, it in enumerate(made))]
    path = folder / "rules.json"
    path.write_text(json.dumps({"groups": [{"name": "a", "rules": rules}]}, indent=1))
    lines = [number for number, line in enumerate(path.read_text().splitlines(), 1) if '"expr"' in line][1:]
    ran = run("check", "--prometheus", url, "-v", "--output", "json", "--max-requests", 100_000, path)
    checks.check(ran.returncode == 0, ran.stderr[-500:])
    found: dict[int, list[Mapping[str, str]]] = {}
    for it in json.loads(ran.stdout):
        found.setdefault(it["line"], []).append(it)
    for line, (text, codes, series, samples) in zip(lines, made):
        said = [it["code"] for it in found.get(line, ()) if it["code"] != "P807"]
        checks.check(said == codes, f"{text}: {said}, and not {codes}")
        reads = [int(number.replace(",", "")) for it in found.get(line, ()) if it["code"] == "P807" for number in re.findall(r"[\d,]+", it["message"])]
        # (a sample may come or go between two looks at the clock)
        is_near = len(reads) == 2 and reads[0] == series and abs(reads[1] - samples) <= 2 * max(series, 1)
        checks.check(is_near, f"{text}: reads {reads}, and not {series} series and {samples} samples")


def metrics_of(folder: Path, url: str) -> None:
    """Which metrics are used, missing and unused."""
    path = folder / "uses.yml"
    queries = ("up + nope", '{__name__=~"a_(b|c)_.+"}', '{__name__=~"(?i)GO_.*", job=""}', 'sum by (job) ({code="200"})')
    rules = [{"record": "job:up:sum", "expr": "sum by (job) (up)"}, *({"alert": f"A{number}", "expr": it} for number, it in enumerate(queries))]
    path.write_text(json.dumps({"groups": [{"name": "a", "rules": rules}]}))
    ran = run("metrics", "--prometheus", url, "--output", "json", path)
    made = json.loads(ran.stdout)
    checks.check(made["unused"] == ["batch_total", "unused_bytes"], made["unused"])
    there = {it["name"]: (it["recorded"], it["onServer"]) for it in made["metrics"]}
    checks.check(there == {"job:up:sum": (True, False), "nope": (False, False), "up": (False, True)}, str(there))
    chosen = [it["selected"] for it in made["selectors"]]
    checks.check(sorted(chosen) == [["a_b_bytes"], ["go_info"], ["http_requests_total"]], str(chosen))


class Guarded(Prometheus):  # type: ignore[misc]
    """A server that asks who it is, and starts all the same."""

    def get(self, path: str) -> tuple[int, bytes]:
        """What it answers to nobody."""
        status, body = super().get(path)
        return 200 if status == 401 else status, body


def credentials(folder: Path, port: int) -> None:
    """A server that asks who it is tells nothing to others."""
    for secret, status in ((f"proxy:{PASSWORD}\n", 0), ("proxy:another\n", 2), ("token\n", 2), ("", 2)):
        path = folder / "secret"
        path.write_text(secret)
        ran = run("check", "--prometheus", f"http://127.0.0.1:{port}", "--prometheus-credentials", path, folder / "uses.yml")
        checks.check(ran.returncode == status and "another" not in ran.stderr, f"{secret!r}: {ran.returncode} {ran.stderr}")
        checks.check(status == 0 or "with status 401 Unauthorized; 5 of 5 queries not looked at there" in ran.stderr, ran.stderr)


def main() -> int:
    """Tries all."""
    count, seed = [*map(int, sys.argv[1:]), *(400, 7)[len(sys.argv) - 1 :]]
    with contextlib.ExitStack() as stack:
        folder = Path(stack.enter_context(tempfile.TemporaryDirectory()))
        server = Prometheus(folder / "a", STORE)
        stack.callback(server.end)
        url = f"http://127.0.0.1:{server.port}"
        random_selectors(folder, url, random.Random(seed), count)
        metrics_of(folder, url)
        (folder / "web.yml").write_text(f"basic_auth_users: {{proxy: '{PASSWORD_HASH}'}}\n")
        guarded = Guarded(folder / "b", STORE, more_options=(f"--web.config.file={folder}/web.yml",))
        stack.callback(guarded.end)
        credentials(folder, guarded.port)
    return checks.end()


if __name__ == "__main__":
    sys.exit(main())
