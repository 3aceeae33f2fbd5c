#!/usr/bin/env python3
"""Types in a rule file of 1,000 rules, and measures what an editor waits for: the answer to each request right after a key, and the
messages after the last key. Usage: keys.py [KEYS]. The last line is 'N passed, M failed'; the bounds are those of docs/guide/editor.md,
and --no-bounds only shows the times.
"""

import os
import statistics
import sys
import time
from pathlib import Path

ROOT = Path(__file__).resolve().parents[2]
sys.path[:0] = [str(ROOT / path) for path in ("bin", "bindings", "bindings/python", "bindings/python/tests")]
import lsp_files  # noqa: E402
from checks import Checks  # noqa: E402
from lsp_client import Client  # noqa: E402

URI = "file:///rules.yml"
TYPED = "sum by (job) (rate(http_requests_total{code=~\"5..\"}[5m])) / on (job) "
# The greatest median, the most that 95 of 100 take, and the most till messages come, in seconds.
MEDIAN, MOST, MESSAGES = 0.030, 0.100, 0.5
REQUESTS = {
    "completion": lambda place: {"position": place},
    "signatureHelp": lambda place: {"position": place},
    "hover": lambda place: {"position": place},
    "documentHighlight": lambda place: {"position": place},
    "selectionRange": lambda place: {"positions": [place]},
    "semanticTokens/range": lambda place: {"range": {"start": {**place, "character": 0}, "end": {"line": place["line"] + 50, "character": 0}}},
    "documentSymbol": lambda place: {},
    "foldingRange": lambda place: {},
}


class Typist:
    """A client that types at one place of a file, key by key."""

    def __init__(self):
        self.client = Client(options={"lint": True})
        lines = lsp_files.rule_file(1_000).split("\n")
        self.line = next(number for number, it in enumerate(lines) if number > len(lines) // 2 and "rate(" in it)
        self.column = len(lines[self.line])
        self.version = 1
        begin = time.monotonic()
        self.client.open(URI, "\n".join(lines), "yaml")
        self.first_read = time.monotonic() - begin
        self.press(" + ")

    def press(self, keys):
        place = {"line": self.line, "character": self.column}
        self.version += 1
        self.column += len(keys)
        self.client.change(URI, self.version, {"range": {"start": place, "end": place}, "text": keys})

    def times(self, method, keys):
        """What each key takes till the answer to a request right after it."""
        found = []
        for number in range(keys):
            begin = time.monotonic()
            self.press(TYPED[number % len(TYPED)])
            place = {"line": self.line, "character": self.column}
            self.client.request(f"textDocument/{method}", {"textDocument": {"uri": URI}, **REQUESTS[method](place)})
            found.append(time.monotonic() - begin)
            # (nobody types faster)
            time.sleep(0.03)
        return found

    def processor_time(self):
        """The seconds of a processor that the server took till now, without its helper: they grow little on a busy machine."""
        fields = Path(f"/proc/{self.client.process.pid}/stat").read_text().rpartition(")")[2].split()
        return (int(fields[11]) + int(fields[12])) / os.sysconf("SC_CLK_TCK")

    def messages_after(self):
        """How long it takes from a last key till its messages."""
        for key in "a + 1":
            self.press(key)
            time.sleep(0.05)
        begin = time.monotonic()
        self.press(" ")
        self.client.wait_for_diagnostics(URI, self.version)
        return time.monotonic() - begin


def main():
    has_bounds = "--no-bounds" not in sys.argv
    keys = next((int(it) for it in sys.argv[1:] if it.isdigit()), 100)
    checks, typist = Checks(), Typist()
    print(f"load {os.getloadavg()[0]:.1f} on {os.cpu_count()} processors; first read {typist.first_read * 1000:.0f} ms")
    for method in REQUESTS:
        begin = typist.processor_time()
        times = sorted(typist.times(method, keys))
        median, most = statistics.median(times), times[int(len(times) * 0.95) - 1]
        mean = (typist.processor_time() - begin) / keys
        print(f"{method}: median {median * 1000:.1f} ms, 95 of 100 within {most * 1000:.1f} ms; {mean * 1000:.1f} ms of a processor")
        checks.check(not has_bounds or median < MEDIAN and most < MOST, f"{method} takes longer")
    times = [typist.messages_after() for _ in range(10)]
    print(f"messages after the last key: median {statistics.median(times) * 1000:.0f} ms, at most {max(times) * 1000:.0f} ms")
    checks.check(not has_bounds or max(times) < MESSAGES, "messages come later")
    checks.check(typist.client.close() == 0, "the server ended in another way")
    return checks.end()


if __name__ == "__main__":
    sys.exit(main())
