"""Tests of the page's server, by HTTP on a free port."""

import http.client
import json
import os
import random
import re
import signal
import socket
import subprocess
import sys
import threading
import time
import unittest
import xml.etree.ElementTree as ElementTree
from pathlib import Path
from unittest import mock

import promql
from promql import drawing, page
from promql.terminal import visible
from serving import enter, served
from test_promql import BROKEN, broken

CALLS = "abs(" * 511 + "a" + ")" * 511
# Seconds that a server and a command are given: the slowest took 20, beside other work and with sanitizers.
PATIENCE = 120
JSON = {"Content-Type": "application/json"}
# A request that is rejected, with the status and a word of the reason.
REJECTED = (
    ("POST", "/query", JSON, b"", 400, "query"),
    ("POST", "/query", JSON, b"{", 400, "query"),
    ("POST", "/query", JSON, b"[]", 400, "query"),
    ("POST", "/query", JSON, b"1", 400, "query"),
    ("POST", "/query", JSON, b"{}", 400, "query"),
    ("POST", "/query", JSON, b'{"query":1}', 400, "query"),
    ("POST", "/query", JSON, b'{"query":["a"]}', 400, "query"),
    ("POST", "/query", JSON, b'{"query":"\\ud800"}', 400, "query"),
    ("POST", "/query", JSON, b'{"query":"\xff"}', 400, "query"),
    ("POST", "/query", JSON, b"[" * 200_000, 400, "query"),
    *(("POST", "/query", JSON, b'{"query":"1","width":%s}' % width, 400, "width")
      for width in (b"0", b"-1", b"101", b"1e1", b"true", b"null", b'"9"', b"9" * 4_000)),
    ("POST", "/query", {**JSON, "Content-Length": "-1"}, b"", 400, "number"),
    ("POST", "/query", {**JSON, "Content-Length": "1e3"}, b"", 400, "number"),
    ("GET", "/page.py", {}, b"", 404, "nothing"),
    ("GET", "/../page.py", {}, b"", 404, "nothing"),
    ("GET", "/static/page.js", {}, b"", 404, "nothing"),
    ("GET", "/?x", {}, b"", 404, "nothing"),
    ("POST", "/other", JSON, b'{"query":"1"}', 404, "nothing"),
    ("PUT", "/", {}, b"", 405, "GET or HEAD"),
    ("POST", "/page.js", JSON, b'{"query":"1"}', 405, "GET or HEAD"),
    ("GET", "/query", {}, b"", 405, "POST"),
    ("OPTIONS", "/query", {}, b"", 405, "POST"),
    ("POST", "/query", JSON, b" " * (page.MAX_BODY + 1), 413, "bytes"),
    ("POST", "/query", JSON, b" " * 3_000_000, 413, "bytes"),
    ("POST", "/query", {}, b'{"query":"1"}', 415, "application/json"),
    ("POST", "/query", {"Content-Type": "text/plain"}, b'{"query":"1"}', 415, "application/json"),
    ("GET", "/", {"Host": "example.org"}, b"", 421, "host"),
    ("GET", "/", {"Host": "localhost.example.org"}, b"", 421, "host"),
    ("GET", "/", {"Host": "127.0.0.1.example.org:80"}, b"", 421, "host"),
    ("GET", "/", {"Host": ""}, b"", 421, "host"),
    ("POST", "/query", {**JSON, "Host": "example.org"}, b'{"query":"1"}', 421, "host"),
)


class Served(unittest.TestCase):
    """A test with a server that runs beside it."""

    handler = page.Handler

    @classmethod
    def setUpClass(cls):
        cls.server = enter(cls, served(cls.handler))

    def request(self, method, path, headers=(), body=b""):
        """The response to a request, and its body."""
        connection = http.client.HTTPConnection(page.ADDRESS, self.server.server_port, timeout=PATIENCE)
        try:
            connection.request(method, path, body=body, headers=dict(headers))
            response = connection.getresponse()
            return response, response.read()
        finally:
            connection.close()

    def talk(self, data):
        """What the server says to these bytes."""
        with socket.create_connection((page.ADDRESS, self.server.server_port), timeout=PATIENCE) as connection:
            connection.sendall(data)
            with connection.makefile("rb") as response:
                return response.read()

    def ask(self, query, **members):
        response, body = self.request("POST", "/query", JSON, json.dumps({"query": query, **members}).encode())
        self.assertEqual(response.status, 200)
        return json.loads(body)


class Queries(Served):
    def test_accepted(self):
        shown = self.ask("sum(foo)/sum(bar{a='é🦀'})")
        self.assertEqual(shown["line"], 'sum(foo) / sum(bar{a="é🦀"})')
        self.assertEqual(shown["layout"], promql.format_query("sum(foo)/sum(bar{a='é🦀'})"))
        self.assertEqual(shown["drawing"], drawing.svg("sum(foo)/sum(bar{a='é🦀'})"))
        self.assertIsNone(shown["note"])

    def test_laid_out(self):
        query = " + ".join(["rate(some_metric[5m])"] * 12)
        self.assertGreater(self.ask(query)["layout"].count("\n"), 9)

    def test_widths(self):
        query = "sum(rate(some_metric{a='b'}[5m])) by (job) / sum(rate(other_metric[5m])) by (job)"
        for width in (1, 20, 41, 99, 100):
            self.assertEqual(self.ask(query, width=width)["layout"], promql.format_query(query, width=width))
        self.assertEqual(self.ask(query)["layout"], promql.format_query(query, width=100))
        self.assertLessEqual(max(map(len, self.ask(query, width=41)["layout"].splitlines())), 41)

    def test_comments(self):
        shown = self.ask("# all\nsum(foo)by(job) # one")
        self.assertEqual((shown["line"], shown["layout"]), ("sum by (job) (foo)", "# all\nsum by (job) (foo) # one"))

    def test_what_the_target_rejects(self):
        """A warning of the first part of the layout, in the words of the library's error."""
        for query, place, part in (
            ("rate(+foo[5m])", (1, 6), "+"),
            ("# 🦀\nsum(\nexp(Inf)) # é", (2, 5), "exp"),
            ("-0 * foo{a='1' or b='2'} * exp(Inf)", (1, 16), "or"),
        ):
            shown = self.ask(query)
            line, layout, warning = shown["line"], shown["layout"], shown["warning"]
            self.assertEqual((line, layout), (promql.canonical(query), promql.format(query)))
            self.assertEqual(((warning["line"], warning["column"]), warning["parts"][1]), (place, part))
            self.assertEqual("".join(warning["parts"]), layout)
            self.assertEqual(warning["message"], next(it.message for it in promql.differences(layout) if it.is_rejected))
        # (the last layout is longer than a query may be)
        for query in ("up", "-0 * up", "a[300]", "(" * 40 + "label_join(exp(Inf), 'b'" + ",''" * 4_000 + ")" * 41):
            self.assertIsNone(self.ask(query)["warning"])
        with self.assertRaises(promql.RefusedError) as raised:
            promql.check(promql.format("sum(\nexp(Inf))"))
        shown = self.ask("sum(\nexp(Inf))")["warning"]
        self.assertEqual([shown[it] for it in ("message", "line", "column")], [getattr(raised.exception, it) for it in ("message", "line", "column")])

    def test_rejected(self):
        for query, place, parts in (
            ("1 +", (1, 4), ["1 +", "", ""]),
            ("", (1, 1), ["", "", ""]),
            ("'🦀' or\nrate(<b>)", (2, 6), ["'🦀' or\nrate(", "<", "b>)"]),
            ("rate(foo)", (1, 6), ["rate(", "foo", ")"]),
        ):
            error = self.ask(query)["error"]
            self.assertEqual(((error["line"], error["column"]), error["parts"]), (place, parts))
            with self.assertRaises(promql.QueryError) as raised:
                promql.check(query)
            self.assertEqual(error["message"], raised.exception.message)

    def test_high_trees(self):
        shown = self.ask(CALLS)
        self.assertEqual((shown["line"], shown["drawing"], shown["note"]), (CALLS, None, "too large to draw: 512 nodes"))
        self.assertIn("more than 512 levels: ", self.ask(f"abs({CALLS})")["error"]["message"])
        drawn = "(" * (page.MAX_NODES - 1) + "a" + ")" * (page.MAX_NODES - 1)
        self.assertEqual(self.ask(drawn)["drawing"].count("<rect "), page.MAX_NODES)
        drawn = "abs(" * (page.MAX_NODES - 1) + "a" + ")" * (page.MAX_NODES - 1)
        self.assertEqual(self.ask(drawn)["drawing"].count("<rect "), page.MAX_NODES)
        self.assertEqual(self.ask(f"({drawn})")["note"], f"too large to draw: {page.MAX_NODES + 1} nodes")

    def test_long_queries(self):
        arguments = "label_join(a, 'b'" + ", 'c'" * 6_000 + ")"
        shown = self.ask(arguments)
        self.assertEqual(shown["line"], promql.canonical(arguments))
        self.assertEqual(shown["note"], "too large to draw: 6,003 nodes")
        matchers = f"x{{{','.join(f'{chr(97)}{n}={chr(34)}1{chr(34)}' for n in range(3_000))}}}"
        self.assertGreater(len(matchers), 25_000)
        self.assertEqual(self.ask(matchers)["drawing"].count("<rect "), 1)
        self.assertEqual(self.ask("(" * 30_000)["error"]["parts"][0][:10], "(" * 10)
        self.assertEqual(len("".join(self.ask("a " * 16_000)["error"]["parts"])), 32_000)
        longer = self.ask("(" * 100_000)["error"]
        self.assertEqual((longer["message"], longer["parts"][0][:10]), ("query is too long: 100000 bytes, at most 32768", "(" * 10))

    def test_long_texts(self):
        wide = "(" * 400 + "label_join(a,'b'" + ",''" * 10_500 + ")" * 401
        with mock.patch.object(page, "MAX_TEXT", 100_000):
            shown = self.ask(wide)
        self.assertEqual((shown["line"], shown["layout"]), (promql.canonical(wide), None))

    def test_number_too_wide(self):
        shown = self.ask("a[18446744073709551616ms]")
        self.assertEqual((shown["drawing"], shown["note"]), (None, "no tree to draw: number too wide for JSON"))

    def test_threads(self):
        queries = [f"sum(a{n}) + {n}" for n in range(40)]
        found = {}
        threads = [threading.Thread(target=lambda it=it: found.update({it: self.ask(it)["line"]})) for it in queries]
        for thread in threads:
            thread.start()
        for thread in threads:
            thread.join()
        self.assertEqual(found, {it: it for it in queries})


class Broken(unittest.TestCase):
    def test_broken_texts(self):
        generator = random.Random(11)
        drawn = 0
        for _ in range(BROKEN // 5):
            text = broken(generator).decode(errors="replace")
            shown = json.loads(json.dumps(page.describe(text)))
            if "error" in shown:
                self.assertEqual("".join(shown["error"]["parts"]), visible(text, "\t\n"))
            elif shown["drawing"] is not None:
                ElementTree.fromstring(shown["drawing"])
                drawn += 1
        self.assertGreater(drawn, 0)


class Requests(Served):
    def test_rejected_requests(self):
        for method, path, headers, body, status, word in REJECTED:
            with self.subTest(method=method, path=path, headers=headers, body=body[:40]):
                response, said = self.request(method, path, headers, body)
                self.assertEqual(response.status, status)
                self.assertIn(word, json.loads(said)["rejected"])
                if status == 405:
                    self.assertEqual(response.headers["Allow"].replace(", ", " or "), word)

    def test_length_is_needed(self):
        lines = b"POST /query HTTP/1.1\r\nHost: localhost\r\nContent-Type: application/json\r\nTransfer-Encoding: chunked\r\n\r\n"
        self.assertTrue(self.talk(lines + b"0\r\n\r\n").startswith(b"HTTP/1.0 411 "))

    def test_hosts(self):
        for host in ("localhost", "LOCALHOST:1", "127.0.0.1:65535", "[::1]:80"):
            self.assertEqual(self.request("GET", "/", {"Host": host})[0].status, 200)
        for lines in (b"GET / HTTP/1.0\r\n\r\n", b"GET / HTTP/1.1\r\nHost: localhost\r\nHost: example.org\r\n\r\n"):
            self.assertTrue(self.talk(lines).startswith(b"HTTP/1.0 421 "))

    def test_every_response_has_the_policy(self):
        responses = [self.request("GET", path)[0] for path in ("/", "/page.js", "/page.css", "/nothing", "/query")]
        responses.append(self.request("POST", "/query", JSON, b'{"query":"1"}')[0])
        for response in responses:
            policy = response.headers["Content-Security-Policy"]
            self.assertTrue(policy.startswith("default-src 'none'; script-src 'self'; style-src 'self'; connect-src 'self';"))
            self.assertNotIn("unsafe", policy)
            self.assertEqual(response.headers["X-Content-Type-Options"], "nosniff")
            self.assertIsNone(response.headers["Access-Control-Allow-Origin"])
        self.assertIn(b"Content-Security-Policy: default-src 'none'", self.talk(b"BREW / HTTP/1.1\r\nHost: localhost\r\n\r\n"))

    def test_unknown_methods(self):
        self.assertTrue(self.talk(b"BREW / HTTP/1.1\r\nHost: localhost\r\n\r\n").startswith(b"HTTP/1.0 501 "))

    def test_files(self):
        for path, (name, kind) in page._FILES.items():
            response, body = self.request("GET", path)
            self.assertEqual((response.status, response.headers["Content-Type"]), (200, kind))
            self.assertEqual(body, (Path(page.__file__).with_name("static") / name).read_bytes())
            head, none = self.request("HEAD", path)
            self.assertEqual((head.status, head.headers["Content-Length"], none), (200, str(len(body)), b""))

    def test_files_ask_for_nothing_elsewhere(self):
        for name, _ in page._FILES.values():
            text = (Path(page.__file__).with_name("static") / name).read_text(encoding="utf-8")
            text = text.replace("http://www.w3.org/2000/svg", "")
            self.assertNotRegex(text, r"//\w|url\(|@import|<style|style=|<script>|\son\w+=|innerHTML|eval\(")

    def test_loopback_alone(self):
        self.assertEqual(self.server.socket.getsockname()[0], "127.0.0.1")


class Impatient(page.Handler):
    timeout = 0.2


class Slow(Served):
    handler = Impatient

    def test_a_body_that_does_not_come(self):
        lines = b"POST /query HTTP/1.1\r\nHost: localhost\r\nContent-Type: application/json\r\nContent-Length: 9\r\n\r\n{"
        self.assertTrue(self.talk(lines).startswith(b"HTTP/1.0 408 "))

    def test_a_request_that_trickles(self):
        """Each byte comes in time, and the request as a whole does not."""
        body = b"Content-Type: application/json\r\nContent-Length: 9999\r\n\r\n"
        for head in (b"GET / HTTP/1.1\r\nHost: localhost\r\nX: ", b"POST /query HTTP/1.1\r\nHost: localhost\r\n" + body):
            with socket.create_connection((page.ADDRESS, self.server.server_port), timeout=PATIENCE) as connection:
                connection.sendall(head)
                start = time.monotonic()
                with self.assertRaises(OSError):
                    while time.monotonic() - start < 10:
                        connection.sendall(b"x")
                        time.sleep(0.02)
            self.assertLess(time.monotonic() - start, 5)


class Command(unittest.TestCase):
    def start(self, *words):
        environment = {**os.environ, "PYTHONPATH": os.pathsep.join(path or "." for path in sys.path)}
        words = [sys.executable, "-m", "promql", *words]
        return subprocess.Popen(words, stdout=subprocess.PIPE, stderr=subprocess.PIPE, env=environment, text=True)

    def test_serve(self):
        with self.start("serve", "--port", "0") as served:
            try:
                port = int(re.fullmatch(r"http://127\.0\.0\.1:(\d+)/\n", served.stdout.readline())[1])
                connection = http.client.HTTPConnection("127.0.0.1", port, timeout=PATIENCE)
                connection.request("GET", "/")
                self.assertEqual(connection.getresponse().status, 200)
                connection.close()
                with self.start("serve", "--port", str(port)) as second:
                    self.assertEqual(second.communicate(timeout=PATIENCE)[1], f"port {port}: Address already in use\n")
                self.assertEqual(second.returncode, 1)
            finally:
                served.send_signal(signal.SIGINT)
                said = served.communicate(timeout=PATIENCE)
        self.assertEqual((served.returncode, *said), (0, "", ""))

    def test_wrong_words(self):
        for words in ((), ("nothing",), ("serve", "--port", "65536"), ("serve", "--port", "-1"), ("serve", "more")):
            with self.start(*words) as ended:
                said = ended.communicate(timeout=PATIENCE)[1]
            self.assertEqual(ended.returncode, 64, words)
            self.assertIn("usage: promql-rules", said)


if __name__ == "__main__":
    unittest.main()
