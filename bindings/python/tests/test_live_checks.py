"""Tests of `promql-rules check --prometheus`: what is asked of a server, and what is said of its answers, right and wrong ones."""

import json
import os
import shutil
import ssl
import subprocess
import time
import unittest
import xml.etree.ElementTree as ElementTree

from command_line import run
from hostile import answering, http
from rule_verdicts import RULES
from test_rule_files import Folder
from test_team_settings import HAS_TOML

# What the server counts; all else is not there.
STORE = {
    "count(up)": 4,
    'count(up{job="api"})': 2,
    'count(up{instance="i3"})': 1,
    'count(up{job!=""})': 4,
    'count(up{instance!=""})': 4,
    "count(http_requests_total)": 2,
    'count({__name__=~"http.*"})': 2,
    'count({job!=""})': 6,
    'count({"http.requests"})': 2,
    'count({__name__="http.requests"})': 2,
    "count(last_over_time(batch_runs_total[86400000ms]))": 1,
    "sum(count_over_time(batch_runs_total[86400000ms]))": 60,
    "sum(count_over_time(up[3900000ms]))": 520,
    "sum(count_over_time(http_requests_total[300000ms]))": 20,
}


def vector(value):
    result = [{"metric": {}, "value": [1.5, str(value)]}] if value else []
    return http(json.dumps({"status": "success", "data": {"resultType": "vector", "result": result}}))


def store(file, path, asked):
    """Answers as a server with these series."""
    assert path == "/api/v1/query", path
    file.write(vector(STORE.get(asked["query"][0], 0)))


def rules(*queries):
    return RULES + "".join(f"  - alert: A{number}\n    expr: {json.dumps(query)}\n" for number, query in enumerate(queries))


class Asked(Folder):
    def check(self, text, *options, answer=store, name="a.yml"):
        """What a check says, without the folder and the server's URL."""
        file = self.file(text, name)
        with answering(answer) as server:
            ran = run("check", "--prometheus", server.url.replace("//", "//name:secret@"), *options, file)
        self.asked = [asked["query"][0] for _, _, asked, _ in server.asked]
        self.assertNotIn("secret", ran.out + ran.err)
        return ran._replace(**{it: getattr(ran, it).replace(str(self.folder), "DIR").replace(server.url, "URL") for it in ("out", "err")})

    def said(self, query, *options, **more):
        """What is said of a query."""
        ran = self.check(rules(query), *options, **more)
        return [line.partition(": ")[2] for line in ran.err.splitlines()]


class Live(Asked):
    def test_findings(self):
        label, value = "`up` has 4 series, but none with a label `jobb`", '`up` has 4 series, but none with `job="x"`'
        for query, wanted in (
            ("up", []),
            ('up{job="api",instance="i3"}', ["warning P804: `up` has 4 series, but none with all of these matchers"]),
            ("nope", ["warning P801: there are no series of `nope`"]),
            ('nope{job="api"} offset 5m', ["warning P801: there are no series of `nope`"]),
            ('up{job="x"} @ end()', [f"warning P803: {value}"]),
            ('up{instance="i3",job="x"}', [f"warning P803: {value}"]),
            ('rate(up{jobb="x"}[5m])', [f"warning P802: {label}"]),
            ('up{jobb="x",job="x"}', [f"warning P802: {label}"]),
            ('sum(up{job="x"}) / nope', [f"warning P803: {value}", "warning P801: there are no series of `nope`"]),
            ('{job="y"}', ['warning P803: there are no series with `job="y"`']),
            ('{jobb="y"}', ["warning P802: there are no series with a label `jobb`"]),
            ('{__name__=~"a.*"}', ['warning P803: there are no series with `__name__=~"a.*"`']),
            ('{__name__=~"http.*"}', []),
            ('{"http.requests"}', []),
            ('{"http.requests", job="x"}', ["warning P802: `http.requests` has 2 series, but none with a label `job`"]),
            ('{__name__="nope"}', ["warning P801: there are no series of `nope`"]),
            # What nobody expects to be there in any case.
            ("absent(nope) or absent_over_time(nope[5m])", []),
            ("nope or up", []),
            ("sum(rate(nope[5m])) or sum(up) or vector(0)", []),
            ("(nope or up) + (nope2 or nope3)", ["warning P801: there are no series of `nope2`", "warning P801: there are no series of `nope3`"]),
            ('ALERTS{alertname="x"} + ALERTS_FOR_STATE', []),
            ("vector(1) > time()", []),
            # What was there in the time that is read.
            ("increase(batch_runs_total[1d])", []),
            ("max_over_time(increase(batch_runs_total[12h])[12h:])", []),
            ("increase(batch_runs_total[1h])", ["warning P801: there are no series of `batch_runs_total`"]),
        ):
            with self.subTest(query):
                self.assertEqual(self.said(query), wanted)
        self.assertEqual(self.check(rules("nope", "up")).status, 0)
        # (a Prometheus does not take it)
        groups = self.check(rules('{a="b" or c="d"}'), "--target", "rules")
        self.assertEqual((groups.status, groups.err), (0, ""))
        ran = self.check(rules("nope", "up"), "--fail-on", "warning")
        self.assertEqual((ran.status, ran.err), (1, "DIR/a.yml:5:12: warning P801: there are no series of `nope`\n"))
        self.assertEqual(ran.out, "DIR/a.yml: 2 rules, no errors\nURL: 2 queries, 1 message\n")

    def test_once(self):
        """Each thing is asked once, whatever files and processes there are."""
        folder = self.folder / "some"
        folder.mkdir()
        for number in range(5):
            (folder / f"{number}.yml").write_text(rules("up", "nope", 'up{job="x"}', f"up{{job='{number}'}}"))
        found = []
        for jobs in "1", "3":
            with answering(store) as server:
                ran = run("check", "--jobs", jobs, "--output", "json", "--prometheus", server.url, folder)
            found.append((ran.status, ran.out.replace(server.url, "")))
            queries = [asked["query"][0] for _, _, asked, _ in server.asked]
            self.assertEqual(len(queries), len(set(queries)))
        self.assertEqual(found[0], found[1])
        self.assertEqual([it["code"] for it in json.loads(found[0][1])], ["P801", "P803", "P803"] * 5)

    def test_recorded(self):
        """What rules of any of the files record is expected to come."""
        self.file(RULES + "  - record: job:up:sum\n    expr: sum by (job) (up)\n", "b.yml")
        self.assertEqual(self.said('job:up:sum{job="x"} > 1', self.folder / "b.yml"), ["1 rule, no errors"][1:])
        self.assertEqual(self.said("job:up:sum > 1"), ["warning P801: there are no series of `job:up:sum`"])

    def test_amounts(self):
        query = "max_over_time(up[5m:1m]) + max_over_time(rate(up[5m])[1h:]) + up + up + rate(http_requests_total[5m])"
        self.assertEqual(self.said(query, "--max-series", "6", "--max-samples", "1000"), [])
        self.assertEqual(self.said(query, "--max-series", "5"), ["warning P805: it reads 6 series, more than 5 (--max-series)"])
        self.assertFalse([it for it in self.asked if "count_over_time" in it])
        self.assertEqual(self.said(query, "--max-samples", "500"), ["warning P806: it reads 544 samples, more than 500 (--max-samples)"])
        self.assertEqual(self.said(query, "-v"), ["info P807: it reads 6 series and 544 samples"])
        self.assertEqual(self.said("vector(0) + time()", "-v"), [])

    def test_silenced(self):
        text = RULES + "  # promql: ignore P803\n" + '  - alert: A\n    expr: up{job="x"} + nope > 1\n'
        self.assertIn("P801", self.check(text).err)
        self.assertNotIn("P803", self.check(text).err)
        for comment in "ignore P8", "ignore", "ignore-file all":
            self.assertEqual(self.check(text.replace("ignore P803", comment)).err, "", comment)
        self.assertEqual(self.check(RULES + "  - alert: A\n    expr: |\n      up + # promql: ignore P801\n      nope\n").err, "")
        board = {"panels": [{"targets": [{"expr": "nope # promql: ignore P801"}, {"expr": "nope # ignore P801"}]}]}
        self.assertEqual(self.check(json.dumps(board), name="a.json").err.count("P801"), 1)
        # (the linter says of none of these that it silences nothing)
        for comment in "P801", "P8", "P80,P805":
            ran = run("lint", self.file(text.replace("P803", comment)))
            self.assertEqual((ran.status, ran.err), (0, ""), ran.out)
        self.assertIn("P003", run("lint", self.file(text.replace("P803", "P103"))).out)

    def test_settings(self):
        if not HAS_TOML:
            self.skipTest("there is no tomllib or tomli here")
        for settings, codes in (
            ('ignore = ["P801"]', {"P803"}),
            ('select = ["P801"]', {"P801"}),
            ('[[paths]]\nfiles = ["a.*"]\nignore = ["P8"]', set()),
            ('fail-on = "warning"', {"P801", "P803"}),
        ):
            self.file(settings, ".promql.toml")
            ran = self.check(rules('up{job="x"} + nope'))
            self.assertEqual({it for it in ("P801", "P803") if it in ran.err}, codes, settings)
            self.assertEqual(ran.status, int("fail-on" in settings))

    def test_variables(self):
        """Matchers with variables of Grafana are left out, and ranges with them are not measured."""
        targets = [{"expr": it} for it in ('up{job=~"$job",instance="i3"}', "rate($metric[5m])", 'rate(nope{job="$job"}[$__range])', 'up{job=~"a$job"}', '{job="$job"}')]
        ran = self.check(json.dumps({"panels": [{"targets": targets}]}), "-v", name="a.json")
        found = [line.partition(": ")[2] for line in ran.err.splitlines()]
        reads = "info P807: it reads {} series and {} samples"
        self.assertEqual(found, [reads.format(1, 1), "warning P801: there are no series of `nope`", reads.format(0, 0), reads.format(4, 4)])
        self.assertFalse([it for it in self.asked if "$" in it])

    def test_not_asked(self):
        """What is rejected, skipped or a unit test is not asked for."""
        tests = "tests:\n- input_series: []\n  promql_expr_test:\n  - expr: nope\n    eval_time: 1m\n    exp_samples: []\n"
        for text in (rules("sum("), tests, RULES + "  - alert: A\n    expr: '{job=\"x\"} |= \"a\"'\n"):
            self.check(text)
            self.assertEqual(self.asked, [], text)

    def test_reports(self):
        text, more = rules("sum(", "nope", "nope2"), ("--max-requests", "1", "--output")
        lost = "URL: more than 1 requests (--max-requests); 1 of 2 queries not looked at there"
        found = json.loads(self.check(text, *more, "json").out)
        self.assertEqual([(it["code"], it["severity"], it["line"]) for it in found], [("P001", "error", 5), ("P801", "warning", 7), ("server", "error", None)])
        self.assertEqual((found[1]["name"], found[2]["message"]), ("no-such-metric", lost))
        made = json.loads(self.check(text, *more, "sarif").out)["runs"][0]
        self.assertEqual([it["id"] for it in made["tool"]["driver"]["rules"]], ["P001", "P801", "server"])
        self.assertIn(f"::error title=server::{lost}", self.check(text, *more, "github").out)
        cases = ElementTree.fromstring(self.check(text, *more, "junit").out).findall(".//testcase")
        self.assertEqual([it.get("name") for it in cases], ["DIR/a.yml:5:16 P001", " server"])
        self.assertEqual(ElementTree.fromstring(self.check(rules("nope"), "--output", "junit").out).findall(".//testcase")[1].get("name"), "URL")


class Bounds(Asked):
    def test_requests(self):
        ran = self.check(rules("up", "up + nope", "nope2", "nope3", "up"), "--max-requests", "3")
        lost = "URL: more than 3 requests (--max-requests); 1 of 5 queries not looked at there"
        self.assertEqual(ran.err.splitlines()[-1], lost)
        self.assertEqual((ran.status, ran.err.count("P801"), len(self.asked)), (2, 2, 3))
        ran = self.check(rules("up"), "--max-requests", "0")
        self.assertEqual((ran.status, self.asked), (2, []))

    def test_tokens(self):
        """A file whose queries have too many tokens is asked for in part, and the status says so."""
        ran = self.check(rules("up + up", "nope + nope"), "--max-lint-tokens", "10")
        self.assertEqual(ran.status, 2)
        self.assertIn("DIR/a.yml:7:12: not looked at from here on: the queries of the file have too many tokens together (--max-lint-tokens)", ran.err)

    def test_down(self):
        """A server that tells nothing is an error with its URL, asked once, and the check without it is done."""
        for answer, text in (
            (http("<html>", kind="text/html"), "no answer of a Prometheus, but text/html, with status 200 OK"),
            (http("", "307 Temporary Redirect"), "redirects to another place, with status 307"),
            (http(b"x" * 10_000_000), "an answer of more than 4,194,304 bytes (--max-answer)"),
            (b"", "Remote end closed connection without response"),
            (http('{"status":"success"}'), "an answer without the value of a query"),
            (http('{"status":"success","data":{"result":"abc"}}'), "an answer without the value of a query"),
            (http('{"status":"success","data":{"result":[{"value":[1]}]}}'), "an answer without the value of a query"),
            (http('{"status":"success","data":{"result":[{"value":[1,"NaN"]}]}}'), "an answer without the value of a query"),
            (http('{"status":"success","data":{"result":[{"value":[1,"+Inf"]}]}}'), "an answer without the value of a query"),
            (http('{"status":"success","data":{"result":{"a":1}}}'), "an answer without the value of a query"),
        ):
            with self.subTest(text):
                ran = self.check(rules("up", "nope", "sum("), answer=answer)
                self.assertEqual((ran.status, len(self.asked)), (2, 1))
                self.assertEqual(ran.err.splitlines()[-1], f"URL: {text}; 2 of 2 queries not looked at there")
                self.assertIn("DIR/a.yml:9:16", ran.err)
                self.assertEqual(self.check(rules("up"), answer=answer).status, 2)

    def test_refused(self):
        """A query that the server gives up does not end the others."""

        def answer(file, path, asked):
            refuses = "nope" in asked["query"][0]
            file.write(http('{"status":"error","error":"too many samples"}', "422 Unprocessable Entity") if refuses else vector(0))

        ran = self.check(rules("nope", "other", "nope", "up"), answer=answer)
        lost = "URL: status 422 Unprocessable Entity: too many samples; 2 of 4 queries not looked at there"
        self.assertEqual((ran.status, ran.err.count("P801"), ran.err.splitlines()[-1]), (2, 2, lost))

    def test_slow(self):
        def answer(file, path, asked):
            time.sleep(8)

        start = time.monotonic()
        ran = self.check(rules(*(f"nope{number}" for number in range(50))), "--request-timeout", "1", answer=answer)
        self.assertIn("no answer within 1.0 s (--request-timeout); 50 of 50 queries not looked at there", ran.err)
        self.assertEqual((ran.status, time.monotonic() - start < 7.5), (2, True))

        def slower(file, path, asked):
            time.sleep(0.4)
            file.write(vector(0))

        ran = self.check(rules(*(f"nope{number}" for number in range(50))), "--server-timeout", "1", answer=slower)
        self.assertIn("50 queries not looked at there", ran.err)
        self.assertEqual((ran.status, len(self.asked) <= 3), (2, True))

    def test_texts(self):
        """What a server says, and what a query has, is shown without what a terminal obeys, and not at length."""
        ran = self.check(rules("up"), answer=http(json.dumps({"status": "error", "error": "\x1b[2J" * 5_000}), "400 \x1b[2J"))
        self.assertTrue(len(ran.err) < 1_000 and "\x1b" not in ran.err, ran.err)
        ran = self.check(rules('up{job="\x1b[2J' + "x" * 5_000 + '"}'))
        self.assertTrue(len(ran.err) < 1_000 and "\x1b" not in ran.err, ran.err)

    def test_urls(self):
        for url in ("", "localhost:9090", "http://u:secret@[::1", "file:///etc/passwd"):
            ran = run("check", "--prometheus", url, self.file(rules("sum(")))
            self.assertEqual(ran.status, 64, ran)
            self.assertIn("not the URL of a server", ran.err)
            self.assertNotIn("secret", ran.err)

    def test_credentials(self):
        bad = self.file("two\nlines", "bad")
        for options, wanted in (
            (("--prometheus-credentials", self.file("me:a word:2\n", "user")), "Basic bWU6YSB3b3JkOjI="),
            (("--prometheus-credentials", self.file("abc.de-f\r\n", "token")), "Bearer abc.de-f"),
            (("--prometheus-credentials", self.file("", "empty")), None),
            ((), None),
        ):
            with answering(store) as server:
                self.assertEqual(run("check", "--prometheus", server.url, *options, self.file(rules("up"))).status, 0)
            self.assertEqual(server.asked[0][3].get("authorization"), wanted)
        for options, text in (
            (("--prometheus-credentials", bad), "bad: not one line of printable characters of ASCII"),
            (("--prometheus-credentials", self.folder / "none"), "none: No such file or directory"),
        ):
            ran = run("check", "--prometheus", "http://127.0.0.1:1", *options, self.file(rules("up")))
            self.assertEqual(ran.status, 64)
            self.assertIn(text, ran.err)
            self.assertNotIn("two", ran.err)

    def test_login(self):
        """A user with a password, or a token, from files of their own, in the words of the proxy."""
        word, token, none = self.file("a:word\n", "word"), self.file("abc.de-f\n", "token"), self.folder / "none"
        for options, wanted in (
            (("--prometheus-user", "me", "--prometheus-password-file", word), "Basic bWU6YTp3b3Jk"),
            (("--prometheus-bearer-file", token), "Bearer abc.de-f"),
        ):
            with answering(store) as server:
                self.assertEqual(run("check", "--prometheus", server.url, *options, self.file(rules("up"))).status, 0)
            self.assertEqual(server.asked[0][3].get("authorization"), wanted)
        for options, text in (
            (("--prometheus-user", "me"), "--prometheus-user and --prometheus-password-file go together"),
            (("--prometheus-password-file", word), "--prometheus-user and --prometheus-password-file go together"),
            (("--prometheus-user", "m:e", "--prometheus-password-file", word), "or a colon"),
            (("--prometheus-user", "me", "--prometheus-password-file", none), "none: No such file or directory"),
            (("--prometheus-bearer-file", none), "none: No such file or directory"),
            (("--prometheus-bearer-file", word), "word: no token, which has no colon"),
            (("--prometheus-bearer-file", self.file("", "empty")), "empty: no token"),
            (("--prometheus-bearer-file", token, "--prometheus-credentials", word), "--prometheus-credentials and --prometheus-bearer-file exclude"),
        ):
            self.assert_wrong("http://127.0.0.1:1", options, text)

    def assert_wrong(self, url, options, text):
        ran = run("check", "--prometheus", url, *options, self.file(rules("up")))
        self.assertEqual(ran.status, 64, ran)
        self.assertIn(text, ran.err)
        self.assertNotIn("word\n", ran.err)


@unittest.skipUnless(shutil.which("openssl"), "there is no openssl")
class Certificates(Folder):
    """A server of `https`, which asks for a certificate, with certificates that are made for it."""

    def setUp(self):
        super().setUp()
        self.made("req", "-x509", "-newkey", "rsa:2048", "-nodes", "-keyout", "ca.key", "-out", "ca.crt", "-subj", "/CN=ca", "-days", "2")
        for name, extension in (("server", "subjectAltName=IP:127.0.0.1"), ("client", "extendedKeyUsage=clientAuth")):
            self.file(extension, f"{name}.ext")
            self.made("req", "-newkey", "rsa:2048", "-nodes", "-keyout", f"{name}.key", "-out", f"{name}.csr", "-subj", f"/CN={name}")
            signed = ("-CA", "ca.crt", "-CAkey", "ca.key", "-CAcreateserial", "-days", "2", "-extfile", f"{name}.ext")
            self.made("x509", "-req", "-in", f"{name}.csr", *signed, "-out", f"{name}.crt")

    def made(self, *words):
        subprocess.run(["openssl", *words], cwd=self.folder, check=True, stdout=subprocess.PIPE, stderr=subprocess.PIPE, timeout=60)

    def check(self, *options, asks=True):
        """What a check of a server says that may ask for a certificate."""
        context = ssl.SSLContext(ssl.PROTOCOL_TLS_SERVER)
        context.load_cert_chain(self.folder / "server.crt", self.folder / "server.key")
        context.load_verify_locations(self.folder / "ca.crt")
        context.verify_mode = ssl.CERT_REQUIRED if asks else ssl.CERT_NONE
        options = [self.folder / word if "." in word else f"--prometheus-{word}" for word in options]
        with answering(store, context) as server:
            return run("check", "--prometheus", server.url, *options, self.file(rules("up")))

    def test_certificates(self):
        whole = ("ca-file", "ca.crt", "cert-file", "client.crt", "key-file", "client.key")
        self.assertEqual(self.check(*whole).status, 0)
        self.assertEqual(self.check(*whole[:2], asks=False).status, 0)
        ran = self.check(*whole[2:], asks=False)
        self.assertEqual((ran.status, "certificate verify failed" in ran.err), (2, True), ran)
        ran = self.check(*whole[:2])
        self.assertEqual((ran.status, "1 of 1 query not looked at there" in ran.err), (2, True), ran)

    def test_wrong_files(self):
        os.mkfifo(self.folder / "a.fifo")
        for options, text in (
            (("ca-file", "none.crt"), "none.crt: No such file or directory"),
            (("ca-file", "ca.key"), "ca.key: no certificates in PEM"),
            (("ca-file", "a.fifo"), "a.fifo: it is no regular file"),
            (("cert-file", "client.crt"), "--prometheus-cert-file and --prometheus-key-file go together"),
            (("cert-file", "client.crt", "key-file", "none.key"), "none.key: No such file or directory"),
            (("cert-file", "client.crt", "key-file", "server.key"), "no certificate and its key in PEM"),
        ):
            ran = self.check(*options, asks=False)
            self.assertEqual((ran.status, text in ran.err), (64, True), ran)
        self.file("", "empty.crt")
        self.assertIn("empty.crt: no certificates in PEM", self.check("ca-file", "empty.crt", asks=False).err)
        self.made("rsa", "-in", "client.key", "-aes128", "-passout", "pass:abcd", "-out", "locked.key")
        ran = self.check("ca-file", "ca.crt", "cert-file", "client.crt", "key-file", "locked.key")
        self.assertEqual((ran.status, "without a password" in ran.err), (64, True), ran)
        ran = run("check", "--prometheus", "http://127.0.0.1:1", "--prometheus-ca-file", self.folder / "ca.crt", self.file(rules("up")))
        self.assertEqual((ran.status, "certificates are for the URL of a server with `https`" in ran.err), (64, True), ran)
