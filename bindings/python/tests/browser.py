"""Tests of the page in Chromium: python3 -m unittest discover -s tests -p browser.py, where Python finds the package.

Chromium runs without a window, and is told what to do by a pipe (its DevTools protocol), so nothing but Python is needed.
CHROMIUM names the program. `python3 browser.py FILE` writes the picture of docs/guide/page.md.
"""

import base64
import json
import os
import shutil
import subprocess
import sys
import tempfile
import time
import unittest
from contextlib import closing
from itertools import count
from urllib.parse import quote

import promql
from promql import page
from serving import enter, served, url_of

CHROMIUM = os.environ.get("CHROMIUM", "chromium")
OPTIONS = ("--headless", "--no-sandbox", "--disable-gpu", "--disable-dev-shm-usage", "--hide-scrollbars", "--remote-debugging-pipe")
SHOWN_IN_GUIDE = (
    "# errors of each job\n"
    'sum(rate(errors_total{code=~"5..",job="api"}[5m]))BY(job) # all codes\n'
    " / on(job) sum(rate(requests_total[5m]))by(job) > 0.05"
)
LARGE = f"({' + '.join(f'rate(some_metric{n}[5m])' for n in range(40))}) / ({' + '.join(f'other_metric{n}' for n in range(40))})"
ROOT_IS_SEEN = """(() => {
    const root = document.querySelector('#drawing .node').getBoundingClientRect();
    const box = document.getElementById('drawing').getBoundingClientRect();
    return root.top >= box.top && root.bottom <= box.bottom && root.left >= box.left;
})()"""
# What reaches beyond the screen, but within a box that scrolls.
WIDER_THAN_SCREEN = """[document.documentElement, ...document.querySelectorAll('body, body *')]
    .filter((it) => it.closest('svg') === null && (it.getBoundingClientRect().right > innerWidth || it.scrollWidth > innerWidth)
        && !['layout', 'drawing'].includes(it.id))
    .map((it) => it.id || it.tagName)"""
SECONDS = 30


class Browser:
    """A Chromium with one page, and what its console said."""

    def __init__(self, width=1000, height=800):
        self.folder = tempfile.mkdtemp()
        to_read, self.to_write = os.pipe()
        from_read, from_write = os.pipe()
        # (it reads from 3 and writes to 4)
        take = f"exec 3<&{to_read} 4>&{from_write}; exec \"$@\""
        options = [*OPTIONS, f"--user-data-dir={self.folder}", f"--window-size={width},{height}"]
        words = ["bash", "-c", take, "bash", CHROMIUM, *options]
        self.process = subprocess.Popen(words, pass_fds=(to_read, from_write), stderr=subprocess.DEVNULL)
        os.close(to_read)
        os.close(from_write)
        self.responses = os.fdopen(from_read, "rb")
        self.numbers = count(1)
        self.complaints = []
        self.session = None
        target = self.call("Target.createTarget", url="about:blank")["targetId"]
        self.session = self.call("Target.attachToTarget", targetId=target, flatten=True)["sessionId"]
        for domain in "Page", "Runtime", "Log":
            self.call(f"{domain}.enable")

    def close(self):
        self.session = None
        self.call("Browser.close")
        self.process.wait()
        os.close(self.to_write)
        self.responses.close()
        shutil.rmtree(self.folder)

    def call(self, method, **parameters):
        """Sends a command, and returns its result."""
        message = {"id": next(self.numbers), "method": method, "params": parameters}
        if self.session:
            message["sessionId"] = self.session
        os.write(self.to_write, json.dumps(message).encode() + b"\0")
        while True:
            response = self.receive()
            if response.get("id") == message["id"]:
                return response["result"]
            if response.get("method") in ("Log.entryAdded", "Runtime.exceptionThrown", "Runtime.consoleAPICalled"):
                self.complaints.append(response["params"])

    def receive(self):
        text = bytearray()
        while not text.endswith(b"\0"):
            byte = self.responses.read(1)
            if not byte:
                raise EOFError("Chromium ended")
            text += byte
        return json.loads(text[:-1])

    def value(self, script):
        """The value of an expression in the page."""
        return self.call("Runtime.evaluate", expression=script, returnByValue=True)["result"].get("value")

    def await_value(self, script):
        """What a promise in the page comes to, as if the user had asked for it."""
        parameters = {"expression": script, "returnByValue": True, "awaitPromise": True, "userGesture": True}
        return self.call("Runtime.evaluate", **parameters)["result"].get("value")

    def show_on(self, width, height, is_phone=False):
        """Shows the page on a screen of this size."""
        self.call("Emulation.setDeviceMetricsOverride", width=width, height=height, deviceScaleFactor=0, mobile=is_phone)

    def text(self, id_):
        return self.value(f"document.getElementById('{id_}').textContent")

    def open(self, url):
        self.call("Page.navigate", url=url)

    def wait_for(self, script):
        """Waits until the expression is true."""
        end = time.monotonic() + SECONDS
        while not self.value(script):
            if time.monotonic() > end:
                raise AssertionError(f"this did not come to be: {script}")
            time.sleep(0.02)

    def wait_shown(self, id_):
        self.wait_for(f"document.getElementById('{id_}')?.hidden === false")

    def picture(self):
        return base64.b64decode(self.call("Page.captureScreenshot", format="png")["data"])


class Page(unittest.TestCase):
    @classmethod
    def setUpClass(cls):
        cls.url = url_of(enter(cls, served()))
        cls.browser = enter(cls, closing(Browser()))

    def setUp(self):
        self.browser.complaints.clear()
        self.browser.open("about:blank")

    def open(self, query=None):
        self.browser.open(self.url if query is None else link(self.url, query))
        self.wait_loaded()

    def wait_loaded(self):
        self.browser.wait_for("document.readyState === 'complete' && document.getElementById('query') !== null")

    def type(self, text):
        self.browser.value("document.getElementById('query').select()")
        self.browser.call("Input.insertText", text=text)

    def test_a_link_with_a_query(self):
        query = "sum(foo)/sum(bar{a='é🦀 +#&'})"
        self.open(query)
        self.browser.wait_shown("accepted")
        self.assertEqual(self.browser.value("document.getElementById('query').value"), query)
        self.assertEqual(self.browser.text("line"), promql.canonical(query))
        self.assertEqual(self.browser.text("layout"), promql.format_query(query))
        labels = self.browser.value("[...document.querySelectorAll('#drawing .label')].map((it) => it.textContent)")
        self.assertEqual(labels, ["/", "sum", "foo", "sum", 'bar{a="é🦀 +#&"}'])
        self.assertEqual(self.browser.complaints, [])

    def test_typing(self):
        self.open()
        self.type("1+2")
        self.browser.wait_for("document.getElementById('line').textContent === '1 + 2'")
        self.browser.wait_shown("accepted")
        self.assertEqual(self.browser.value("location.hash"), "#q=1%2B2")
        self.type("1 +")
        self.browser.wait_shown("rejected")
        self.assertTrue(self.browser.value("document.getElementById('accepted').hidden"))
        self.assertTrue(self.browser.text("message").startswith("1:4: unexpected end of query, expected expression, "))
        self.type(" ")
        self.browser.wait_for("document.getElementById('rejected').hidden")
        self.assertTrue(self.browser.value("document.getElementById('accepted').hidden"))
        self.assertEqual(self.browser.complaints, [])

    def test_following_a_link_within_the_page(self):
        self.open("a")
        self.browser.wait_for("document.getElementById('line').textContent === 'a'")
        self.browser.value("location.hash = '#q=b'")
        self.browser.wait_for("document.getElementById('line').textContent === 'b'")
        self.browser.value("location.hash = '#q=%'")
        self.browser.wait_shown("trouble")

    def test_the_place_of_an_error(self):
        self.open("'🦀' or\nrate(foo)")
        self.browser.wait_shown("rejected")
        self.assertEqual(self.browser.text("place"), "'🦀' or\nrate(foo)")
        self.assertEqual(self.browser.value("document.querySelector('#place mark').textContent"), "foo")
        self.assertEqual(self.browser.text("message")[:13], "2:6: expected")

    def test_what_the_target_rejects(self):
        self.open("sum(foo{a='🦀' or b='2'})")
        self.browser.wait_shown("warning")
        self.browser.wait_shown("accepted")
        self.assertEqual(self.browser.text("warning"), "1:15: Prometheus 3 rejects this: it knows no `or` between matchers")
        self.assertEqual(self.browser.text("layout"), 'sum(foo{a="🦀" or b="2"})')
        self.assertEqual(self.browser.value("document.querySelector('#layout mark').textContent"), "or")
        self.type("sum(foo)")
        self.browser.wait_for("document.getElementById('layout').textContent === 'sum(foo)'")
        self.assertTrue(self.browser.value("document.getElementById('warning').hidden"))
        self.assertIsNone(self.browser.value("document.querySelector('#layout mark')"))
        self.assertEqual(self.browser.complaints, [])

    def test_nothing_of_a_query_is_markup(self):
        attack = "<img src=x onerror='document.title=1'><script>document.title=1</script>"
        for query, shown in ((f'count_values("a", foo{{b="{attack}"}})', "accepted"), (f"rate({attack})", "rejected")):
            self.open(query)
            self.browser.wait_shown(shown)
            for tag, found in (("img", 0), ("script", 1)):
                self.assertEqual(self.browser.value(f"document.querySelectorAll('{tag}').length"), found)
            self.assertEqual(self.browser.value("document.title"), "PromQL")
            self.assertEqual(self.browser.complaints, [])
            self.browser.open("about:blank")

    def test_the_policy_holds(self):
        self.open("1")
        self.browser.wait_shown("accepted")
        self.browser.value("document.body.insertAdjacentHTML('beforeend', '<img src=x onerror=\"document.title=1\">')")
        self.browser.wait_for("document.querySelector('img')?.complete")
        self.assertEqual(self.browser.value("document.title"), "PromQL")
        reached = "fetch('http://127.0.0.1:9/').then(() => 'reached', () => 'blocked').then((it) => { document.title = it })"
        self.browser.value(reached)
        self.browser.wait_for("document.title === 'blocked'")
        texts = [it["entry"]["text"] for it in self.browser.complaints if "entry" in it]
        self.assertTrue(any("connect-src" in it for it in texts), texts)

    def test_large_queries(self):
        self.open("abs(" * 511 + "a" + ")" * 511)
        self.browser.wait_shown("accepted")
        self.assertEqual(self.browser.text("note"), "too large to draw: 512 nodes")
        self.assertTrue(self.browser.value("document.getElementById('drawing').hidden"))
        self.open()
        self.type("x" * (page.MAX_BODY + 1))
        self.browser.wait_shown("trouble")
        self.assertIn("rejects the request: the body has more than", self.browser.text("trouble"))

    def test_boxes_hold_their_texts(self):
        self.open('sum by (job) (rate(requests_total{code=~"5..",job="日本"}[5m])) > bool on (job) group_left (a) b{c="d"} * time()')
        self.browser.wait_shown("accepted")
        script = """[...document.querySelectorAll('.node')].every((node) => {
            const box = node.querySelector('rect').getBoundingClientRect();
            return [...node.querySelectorAll('text')].every((text) => {
                const { left, right, top, bottom } = text.getBoundingClientRect();
                return left >= box.left && right <= box.right && top >= box.top && bottom <= box.bottom;
            });
        })"""
        self.assertTrue(self.browser.value(script))

    def test_a_large_tree_opens_at_its_root(self):
        self.open(LARGE)
        self.browser.wait_shown("accepted")
        self.assertTrue(self.browser.value("document.getElementById('drawing').scrollTop > 500"))
        self.assertTrue(self.browser.value(ROOT_IS_SEEN))
        self.assertEqual(self.browser.value("document.querySelector('#drawing .node .label').textContent"), "/")
        self.browser.value("document.getElementById('drawing').scrollTop = 0")
        self.assertFalse(self.browser.value(ROOT_IS_SEEN))
        self.type(f"{LARGE} + 1")
        self.browser.wait_for("document.querySelector('#drawing .node .label').textContent === '+'")
        self.assertTrue(self.browser.value(ROOT_IS_SEEN))

    def test_screens(self):
        """Nothing is wider than the screen, nor a line of the layout wider than its box."""
        self.addCleanup(self.browser.call, "Emulation.clearDeviceMetricsOverride")
        for width, height in ((320, 568), (390, 844), (844, 390), (1280, 800)):
            self.browser.show_on(width, height, is_phone=width < 1000)
            for query, id_ in ((SHOWN_IN_GUIDE, "accepted"), (LARGE, "accepted"), (f"rate({'x' * 300})", "rejected"), ("'" + "y" * 300, "rejected")):
                self.browser.open("about:blank")
                self.open(query)
                self.browser.wait_shown(id_)
                self.assertEqual(self.browser.value("innerWidth"), width)
                self.assertEqual(self.browser.value(WIDER_THAN_SCREEN), [], (width, query))
            self.open(SHOWN_IN_GUIDE)
            self.browser.wait_for("document.getElementById('line').textContent.startsWith('sum by (job)')")
            self.assertTrue(self.browser.value("document.getElementById('layout').scrollWidth <= document.getElementById('layout').clientWidth"))
        self.assertEqual(self.browser.text("layout"), promql.format_query(SHOWN_IN_GUIDE))

    def test_a_screen_that_is_turned(self):
        self.addCleanup(self.browser.call, "Emulation.clearDeviceMetricsOverride")
        self.browser.show_on(390, 844, is_phone=True)
        self.open(SHOWN_IN_GUIDE)
        self.browser.wait_shown("accepted")
        upright = self.browser.text("layout")
        self.browser.show_on(844, 390, is_phone=True)
        self.browser.wait_for(f"document.getElementById('layout').textContent !== {json.dumps(upright)}")
        self.assertLess(self.browser.text("layout").count("\n"), upright.count("\n"))

    def test_copying(self):
        self.browser.call("Browser.grantPermissions", permissions=["clipboardReadWrite", "clipboardSanitizedWrite"])
        self.browser.call("Emulation.setFocusEmulationEnabled", enabled=True)
        self.addCleanup(self.browser.call, "Browser.resetPermissions")
        self.open("# é🦀\nsum(a)by(b)")
        self.browser.wait_shown("accepted")
        for id_, text in (("layout", "# é🦀\nsum by (b) (a)"), ("line", "sum by (b) (a)")):
            self.browser.await_value(f"document.querySelector('[data-copies={id_}]').click()")
            self.browser.wait_for(f"document.querySelector('[data-copies={id_}]').textContent === 'Copied'")
            self.assertEqual(self.browser.await_value("navigator.clipboard.readText()"), text)
            self.browser.wait_for(f"document.querySelector('[data-copies={id_}]').textContent === 'Copy'")
        self.assertEqual(self.browser.complaints, [])

    def test_copying_where_it_is_not_allowed(self):
        self.open("sum(a)by(b)")
        self.browser.wait_shown("accepted")
        self.browser.value("navigator.clipboard.writeText = () => Promise.reject()")
        self.browser.value("document.querySelector('[data-copies=line]').click()")
        self.browser.wait_for("document.querySelector('[data-copies=line]').textContent === 'Selected'")
        self.assertEqual(self.browser.value("getSelection().toString()"), "sum by (b) (a)")

    def test_a_text_too_long_to_show_is_not_copied(self):
        self.open()
        self.browser.value("showResult({ line: 'a', layout: null, drawing: null, note: 'n' })")
        self.assertEqual(self.browser.text("layout"), "too long to show")
        self.assertTrue(self.browser.value("document.querySelector('[data-copies=layout]').hidden"))
        self.assertFalse(self.browser.value("document.querySelector('[data-copies=line]').hidden"))

    def test_the_example_in_the_empty_field(self):
        self.open()
        promql.check(self.browser.value("document.getElementById('query').placeholder"))

    def test_dark_and_light(self):
        self.open("1")
        self.browser.wait_shown("accepted")
        colours = []
        for scheme in "light", "dark":
            self.browser.call("Emulation.setEmulatedMedia", features=[{"name": "prefers-color-scheme", "value": scheme}])
            names = "document.body", "document.querySelector('.node rect')"
            colours.append([self.browser.value(f"getComputedStyle({it}).{style}") for it, style in zip(names, ("color", "fill"))])
        self.assertEqual(colours, [["rgb(28, 33, 39)", "rgb(255, 255, 255)"], ["rgb(228, 232, 236)", "rgb(20, 24, 29)"]])
        self.browser.call("Emulation.setEmulatedMedia", features=[])

    def test_no_server(self):
        with served() as server:
            self.browser.open(url_of(server))
            self.wait_loaded()
        self.type("1")
        self.browser.wait_shown("trouble")
        self.assertEqual(self.browser.text("trouble"), "The server does not respond.")

    def test_half_a_character(self):
        self.open()
        self.browser.value("document.getElementById('query').value = '\\ud800'")
        self.browser.value("document.getElementById('query').dispatchEvent(new Event('input'))")
        self.browser.wait_shown("trouble")
        self.assertEqual(self.browser.complaints[1:], [])


def link(url, query):
    return f"{url}#q={quote(query, safe='')}"


def write_picture(path):
    with served() as server, closing(Browser(960, 820)) as browser:
        browser.open(link(url_of(server), SHOWN_IN_GUIDE))
        browser.wait_shown("accepted")
        with open(path, "wb") as file:
            file.write(browser.picture())


if __name__ == "__main__":
    write_picture(sys.argv[1])
