"""Tests of the calls by the extension, which are those by ctypes, and of many queries in one call: python3 -m unittest discover -s tests,
where Python finds the package."""

import os
import random
import sys
import threading
import tracemalloc
import unittest
from importlib.machinery import EXTENSION_SUFFIXES
from importlib.util import module_from_spec

import promql
from promql import _calls, _library
from promql._calls import calls
from syntax_errors import NO_OPERAND

try:
    import _testcapi
except ImportError:
    _testcapi = None

BROKEN = int(os.environ.get("PROMQL_BROKEN", "10000")) // 5
NO_TEXTS = (None, 1, 0.5, b"up", b"\xff\xfe", bytearray(b"up"), ["up"], object(), str, memoryview(b"up"), (), {"up": 1})
SURROGATES = ("\ud800", "a\udfff", "sum(a{b='\udc80'})", "\ud83d" + "a" * 5000)
PIECES = (
    *("sum", "(", ")", "{", "}", "[5m]", "a", "b", "=", '"', "'", "~", "!=", ",", " by ", "1"),
    *("é", "🦀", "\0", "\x7f", "\ud800", "\n", "@", "offset"),
)
# Each function of the calls with the arguments after the query.
FUNCTIONS = (
    ("canonical",),
    ("check",),
    ("collect",),
    ("places",),
    ("explain",),
    ("json",),
    ("placed_json",),
    ("format", 0, 20),
    ("format", 512, 2**64 - 1),
    ("snippet", 1, 3),
    ("snippet", 2**64 - 1, 0),
    ("enforce", "a='1'"),
    ("enforce", "a=~'b|c'"),
    ("enforce", "\0"),
    ("rename", 0, "up", "down"),
    ("rename", 1, "a", "b"),
    ("rename", 2, "", ""),
)
# (an older library has none)
for name in "is_constant", "parts", "tokens":
    if hasattr(calls, name) and hasattr(_library._library, f"promql_{name}"):
        FUNCTIONS += ((name,),)
if hasattr(calls, "pinned") and hasattr(_library._library, "promql_pinned"):
    FUNCTIONS += (("windows", -5, 2**63 - 1, 0, 7, 1, 1), ("last_read", 5, -(2**63), 0, 1, 2**64 - 1, 9, 0), ("pinned", -1, 1))
if hasattr(calls, "reaches") and hasattr(_library._library, "promql_reaches"):
    FUNCTIONS += (("reaches", -5, 2**63 - 1, 0, 7, 1, 1), ("may_read", '{"a":"1"}'), ("may_read", "[]"), ("may_read", ""))
if hasattr(calls, "print_tree") and hasattr(_library._library, "promql_print_tree"):
    FUNCTIONS += (("print_tree", 0, 0, 0, True), ("print_tree", 1, 2, 20, False), ("print_tree", 3, 0, 0, True))


# Texts of these tests are longer than is allowed by default, and some are just within this.
MAX_LEN = 1_048_576
MAX_OUTPUT = 8_388_608


def setUpModule():
    promql.set_limits(max_len=MAX_LEN, max_output=MAX_OUTPUT)


def tearDownModule():
    promql.set_limits()


def outcome(maker, name, query, *arguments):
    """What a call gives, or the type and the text of its error."""
    try:
        return getattr(maker, name)(query, *arguments)
    except Exception as error:
        return type(error), str(error)


def text(generator):
    """A text of pieces of queries, or of any characters, surrogates among them."""
    if generator.random() < 0.2:
        return "".join(chr(generator.randrange(0x110000)) for _ in range(generator.randrange(40)))
    return "".join(generator.choice(PIECES) for _ in range(generator.randrange(1, 20)))


class Makers(unittest.TestCase):
    def test_which_is_used(self):
        if os.environ.get("PROMQL_EXTENSION") == "":
            self.assertIs(calls, _library)
        elif _calls.SUFFIX in EXTENSION_SUFFIXES:
            self.assertTrue(calls.__file__.endswith(_calls.SUFFIX), calls)

    def test_no_extension(self):
        before = os.environ.get("PROMQL_EXTENSION")
        try:
            for path in "", "/nowhere/_native.abi3.so", __file__:
                os.environ["PROMQL_EXTENSION"] = path
                self.assertIsNone(_calls.extension(), path)
        finally:
            os.environ.pop("PROMQL_EXTENSION")
            if before is not None:
                os.environ["PROMQL_EXTENSION"] = before

    def test_not_loaded(self):
        """A second extension, whose library was not opened, or is none."""
        if calls is not _library:
            other = module_from_spec(calls.__spec__)
            self.assertEqual(outcome(other, "canonical", "up"), (RuntimeError, "the library is not loaded"))
            self.assertEqual(outcome(other, "load", b"libpromql.so"), (RuntimeError, "the module is not executed"))
            calls.__spec__.loader.exec_module(other)
            for name, *arguments in FUNCTIONS:
                self.assertEqual(outcome(other, name, "up", *arguments), (RuntimeError, "the library is not loaded"))
            for path in b"/nowhere/libpromql.so", os.fsencode(__file__):
                self.assertRaises(ImportError, other.load, path)
            self.assertRaises(TypeError, other.load, "libpromql.so")


class Same(unittest.TestCase):
    """The extension and ctypes give the same, errors included."""

    def check(self, query):
        for name, *arguments in FUNCTIONS:
            self.assertEqual(outcome(calls, name, query, *arguments), outcome(_library, name, query, *arguments), (name, query))

    def test_no_texts(self):
        for value in NO_TEXTS:
            self.check(value)
            self.assertEqual(outcome(calls, "canonical", value), (TypeError, f"expected a str, got {type(value)!r}"))
            self.assertEqual(outcome(calls, "enforce", "up", value), (TypeError, f"expected a str, got {type(value)!r}"))
            self.assertEqual(outcome(_library, "enforce", "up", value), (TypeError, f"expected a str, got {type(value)!r}"))

    def test_surrogates(self):
        for query in SURROGATES:
            self.check(query)
            self.assertEqual(outcome(calls, "check", query)[0], UnicodeEncodeError)
            self.assertEqual(outcome(calls, "enforce", "up", query)[0], UnicodeEncodeError)

    def test_trees(self):
        for query in ("1", "-(a) + on (b) c", "sum by (a) (rate({b='\U0001f980'}[5m]))", "a" * 3000):
            self.check(calls.json(query))

    def test_zero_bytes(self):
        for query in ("\0", "up\0", "'\0'", "a{b='\0'}", "\0" * 5000):
            self.check(query)
        self.assertEqual(promql.canonical("'\0'"), '"\0"')
        with self.assertRaises(promql.QueryError) as raised:
            promql.check("up\0 + 1")
        self.assertEqual((raised.exception.line, raised.exception.column), (1, 3))

    def test_broken_texts(self):
        generator = random.Random(11)
        for _ in range(BROKEN):
            self.check(text(generator))

    def test_lengths(self):
        """Texts up to each size that the extension has: its room on the stack, and the length up to which it keeps the lock."""
        for size in (0, 1, 2, 1022, 1023, 1024, 1025, 1535, 1536, 1537, 4094, 4095, 4096, 4097, 65_536, 70_000, MAX_LEN, MAX_LEN + 1):
            self.check("x" * size)
        self.check("+".join(["x"] * 3000))
        self.check('a{b="' + "é" * 5000 + '"}')

    def test_numbers(self):
        for arguments in ((-1, 0), (0, -1), (0, 2**64), (0.5, 0), ("1", 0), (None, 0), (0,), (0, 0, 0)):
            self.assertIn(outcome(promql, "canonical", "up", *arguments)[0], (TypeError,))
        for level, width in ((0.5, 1), (1, 0.5), ("1", 1), (None, 1)):
            with self.assertRaises(TypeError):
                promql.pretty("up", level=level, width=width)
        self.assertEqual(promql.pretty("up", level=True), "  up")

    def test_strange_texts(self):
        class Text(str):
            def encode(self, *arguments):
                raise AssertionError("it is not asked")

            def __len__(self):
                return 2**40

        self.check(Text("sum(up)"))
        self.assertEqual(promql.canonical(Text("sum  (up)")), "sum(up)")
        self.assertEqual(outcome(promql, "check", Text("1 +")), (promql.QueryError, "1:4: " + NO_OPERAND))


class Many(unittest.TestCase):
    QUERIES = ("1+2", "1 +", "a{b='c'}or d", "\ud800", "", "sum(\0)", "é", "'" + "é" * 3000 + "'", "x" * 70_000, "a{b=~'c{3000}'}")

    def wanted(self, queries):
        found = []
        for query in queries:
            try:
                found.append(promql.canonical(query))
            except (promql.QueryError, UnicodeEncodeError) as error:
                found.append((type(error), error.args))
        return found

    def check(self, queries):
        found = [it if isinstance(it, str) else (type(it), it.args) for it in promql.canonical_many(iter(queries))]
        self.assertEqual(found, self.wanted(queries))

    def test_lines(self):
        self.assertEqual(promql.canonical_many([]), [])
        self.assertEqual(promql.canonical_many(["1+2", "a  or b"]), ["1 + 2", "a or b"])
        self.assertEqual(promql.canonical_many({"1+2": 0}), ["1 + 2"])
        rejected, line, surrogate, large = promql.canonical_many(("1 +", "up", "a\ud800", "x" * 1_048_577))
        self.assertEqual((str(rejected), rejected.query, rejected.snippet()), ("1:4: " + NO_OPERAND, "1 +", "1 +\n   ^"))
        self.assertEqual(line, "up")
        self.assertEqual((type(surrogate), surrogate.start), (UnicodeEncodeError, 1))
        self.assertEqual(type(large), promql.TooLargeError)

    def test_numbers_of_queries(self):
        """Up to each number and each size at which the extension begins anew."""
        for count in (1, 2, 63, 64, 65, 127, 128, 129, 1000):
            self.check([f"a{n} +b" for n in range(count)])
            self.check([self.QUERIES[n % len(self.QUERIES)] for n in range(count)])
        for size in (4096, 65_535, 65_536, 65_537, 200_000):
            self.check(["x" * size, "1+2", "y" * size] * 3)
        self.check(["+".join(["x"] * 30_000), "1 +"] * 2)

    def test_random_texts(self):
        generator = random.Random(12)
        self.check([text(generator) for _ in range(BROKEN)])

    def test_no_texts(self):
        for value in NO_TEXTS:
            with self.assertRaises(TypeError) as raised:
                promql.canonical_many(["up"] * 100 + [value])
            self.assertEqual(str(raised.exception), f"expected a str, got {type(value)!r}")
        for value in (None, 1, object(), "up", ""):
            with self.assertRaises(TypeError):
                promql.canonical_many(value)

    def test_failing_iterators(self):
        def queries():
            for number in range(100):
                yield f"a{number}"
            raise KeyError("no more")

        with self.assertRaises(KeyError):
            promql.canonical_many(queries())

    def test_calls_within(self):
        def queries(depth):
            for number in range(70):
                yield promql.canonical_many(queries(depth - 1))[-1] if depth and number == 35 else f"a{number}+1"

        self.assertEqual(promql.canonical_many(queries(3))[35:37], ["a69 + 1", "a36 + 1"])

    def test_small_stack(self):
        """Every query has the error of the thread then, so it is raised."""
        found = []

        def work():
            try:
                found.append(promql.canonical_many(["up"]))
            except promql.SmallStackError as error:
                found.append(type(error))

        before = threading.stack_size()
        threading.stack_size(256 * 1024)
        self.addCleanup(threading.stack_size, before)
        thread = threading.Thread(target=work)
        thread.start()
        thread.join()
        # (a thread may have more than it asked for: the stack of one that ended)
        self.assertIn(found, ([promql.SmallStackError], [["up"]]))


class Memory(unittest.TestCase):
    def every_call(self):
        for query in ("sum(up) by (job)", "1 +", "\ud800", b"up", "x" * 10_000, "a{b=~'c|d'}", "a[18446744073709551616ms]"):
            for name, *arguments in FUNCTIONS:
                outcome(calls, name, query, *arguments)
                outcome(calls, name, "up", *arguments)
            outcome(calls, "enforce", "up", query)
            outcome(calls, "canonical_many", [query] * 70)
            outcome(calls, "canonical_many", ["up", query, "x" * 100_000])
        outcome(calls, "canonical_many", 1)
        outcome(calls, "format", "up", "no number", 1)

    def test_nothing_is_kept(self):
        self.every_call()
        tracemalloc.start()
        self.addCleanup(tracemalloc.stop)
        self.every_call()
        before = tracemalloc.get_traced_memory()[0]
        for _ in range(20):
            self.every_call()
        self.assertLess(tracemalloc.get_traced_memory()[0] - before, 4096)

    def test_a_query_that_is_too_large(self):
        query = "x" * 10_000_000
        tracemalloc.start()
        self.addCleanup(tracemalloc.stop)
        for call in promql.parse, promql.canonical, promql.pretty, promql.check:
            with self.assertRaises(promql.TooLargeError):
                call(query)
        self.assertLess(tracemalloc.get_traced_memory()[1], 60_000_000)

    def test_large_texts(self):
        """The text has more bytes than a room has at first."""
        query = "label_join(a, 'b', 'c'" + ", 'd'" * 190_000 + ")"
        literal = {"type": "stringLiteral", "val": "d"}
        self.assertEqual(promql.parse(query)["args"][3:], [literal] * 190_000)
        wide = "sum(a)" + "/sum(a)" * 100
        self.assertEqual(promql.pretty(wide, level=512, width=0).replace(" ", "").replace("\n", ""), wide)

    def test_references(self):
        query = "".join(["a", " +b"])
        before = sys.getrefcount(query), sys.getrefcount(None)
        for _ in range(1000):
            calls.canonical(query)
            calls.canonical_many([query, "\ud800", "1 +"])
        after = sys.getrefcount(query), sys.getrefcount(None)
        self.assertEqual(after[0], before[0])
        self.assertLess(abs(after[1] - before[1]), 500)

    @unittest.skipIf(calls is _library, "ctypes raises errors of its own where allocations fail")
    @unittest.skipIf(_testcapi is None, "this Python has no _testcapi, which makes allocations fail")
    def test_failing_allocations(self):
        """Each allocation of a call fails in turn: it raises MemoryError, or does without."""
        for query in "sum(up)", "1 +", "x" * 10_000:
            for name, arguments in (("canonical", (query,)), ("enforce", (query, "a='1'")), ("canonical_many", ([query, "\ud800"] * 40,))):
                function, raised = getattr(calls, name), 0
                wanted = function(*arguments)
                for number in range(400):
                    _testcapi.set_nomemory(number, number + 1)
                    try:
                        made = function(*arguments)
                    except MemoryError:
                        made = None
                    finally:
                        _testcapi.remove_mem_hooks()
                    raised += made is None
                    self.assertIn(made, (None, wanted))
                self.assertGreater(raised, 0, name)


class Lock(unittest.TestCase):
    def test_other_threads_run(self):
        """While a long call is made another thread takes the lock. (None is forced to release it, and one may come late: so it is tried
        several times.)"""
        before = sys.getswitchinterval()
        sys.setswitchinterval(1000)
        self.addCleanup(sys.setswitchinterval, before)
        query = "label_join(a, 'b', 'c'" + ", 'd'" * 190_000 + ")"
        for function, argument in ((promql.canonical, query), (promql.pretty, query), (promql.canonical_many, [query])):
            self.assertTrue(any(self.is_overtaken(function, argument) for _ in range(20)), function)

    @staticmethod
    def is_overtaken(function, argument):
        order, go = [], threading.Event()

        def work():
            go.wait()
            order.append("other")

        thread = threading.Thread(target=work)
        thread.start()
        go.set()
        function(argument)
        order.append("call")
        thread.join()
        return order == ["other", "call"]


if __name__ == "__main__":
    unittest.main()
