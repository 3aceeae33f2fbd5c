"""Tests of the events of libyaml: those that the extension tells, and those that PyYAML does, which are the same."""

import random
import time
import tracemalloc
import unittest
from itertools import islice

from promql import yaml_events
from promql._calls import calls

try:
    from yaml import CSafeLoader
except ImportError:
    CSafeLoader = None

by_extension = getattr(calls, "yaml_events", None)
if not by_extension or by_extension("", 0, 0) is None:
    raise unittest.SkipTest("the extension finds no libyaml here")

MANY = 1_000_000
EMPTY = ("", "", "", "")
END = ("end", *EMPTY, 0, 0, 0)
DOCUMENT = ("document", *EMPTY, 0, 0, 0)
# Texts, and what is told of them.
TOLD = {
    "nothing": ("", []),
    "line feeds": ("\n\r\n\r", []),
    "a comment": ("# a", []),
    "an empty document": ("---\n", [DOCUMENT, ("scalar", *EMPTY, 4, 4, 0)]),
    "a scalar": ("a", [DOCUMENT, ("scalar", "a", "", "", "", 0, 1, 0)]),
    "each style": (
        "- a\n- 'b''c'\n- \"d\\n\"\n- |\n  e\n- >-\n  f\n  g\n",
        [
            DOCUMENT, ("sequence", *EMPTY, 0, 0, 0), ("scalar", "a", "", "", "", 2, 3, 2), ("scalar", "b'c", "'", "", "", 6, 12, 2),
            ("scalar", "d\n", '"', "", "", 15, 20, 2), ("scalar", "e\n", "|", "", "", 23, 29, 2),
            ("scalar", "f g", ">", "", "", 31, 42, 2), END,
        ],
    ),
    "lists and mappings": (
        "a: [b, {c: d}]\n",
        [
            DOCUMENT, ("mapping", *EMPTY, 0, 0, 0), ("scalar", "a", "", "", "", 0, 1, 0), ("sequence", "", "{", "", "", 3, 4, 3),
            ("scalar", "b", "", "", "", 4, 5, 4), ("mapping", "", "{", "", "", 7, 8, 7), ("scalar", "c", "", "", "", 8, 9, 8),
            ("scalar", "d", "", "", "", 11, 12, 11), END, END, END,
        ],
    ),
    "anchors, tags and aliases": (
        "- &a !!str b\n- *a\n- !c [ ]\n- !!map &d {}\n",
        [
            DOCUMENT, ("sequence", *EMPTY, 0, 0, 0), ("scalar", "b", "", "a", "tag:yaml.org,2002:str", 2, 12, 2),
            ("alias", "", "", "a", "", 15, 17, 2), ("sequence", "", "{", "", "!c", 20, 24, 2), END,
            ("mapping", "", "{", "d", "tag:yaml.org,2002:map", 29, 39, 2), END, END,
        ],
    ),
    "characters of several bytes": (
        "é: 🦀\n'🦀é': ü\n",
        [
            DOCUMENT, ("mapping", *EMPTY, 0, 0, 0), ("scalar", "é", "", "", "", 0, 1, 0), ("scalar", "🦀", "", "", "", 3, 4, 3),
            ("scalar", "🦀é", "'", "", "", 5, 9, 0), ("scalar", "ü", "", "", "", 11, 12, 6), END,
        ],
    ),
    "carriage returns": (
        "- a\r\n- b\r- c",
        [
            DOCUMENT, ("sequence", *EMPTY, 0, 0, 0), ("scalar", "a", "", "", "", 2, 3, 2), ("scalar", "b", "", "", "", 7, 8, 2),
            ("scalar", "c", "", "", "", 11, 12, 2), END,
        ],
    ),
    "a zero by an escape": ('"a\\0b"', [DOCUMENT, ("scalar", "a\0b", '"', "", "", 0, 6, 0)]),
    "an open quote": ("'a", [("error", "found unexpected end of stream", "", "", "", 2, 2, 0)]),
    "an open bracket": (
        "[a",
        [
            DOCUMENT, ("sequence", "", "{", "", "", 0, 1, 0), ("scalar", "a", "", "", "", 1, 2, 1),
            ("error", "did not find expected ',' or ']'", "", "", "", 2, 2, 0),
        ],
    ),
    "a zero": ("a\0b", [("error", "control characters are not allowed", "", "", "", 0, 0, 0)]),
    "a tag that is no text": (
        "!<%ED%A0%80> a\n--- b\n",
        [DOCUMENT, ("error", "'utf-8' codec can't decode byte 0xed in position 0: invalid continuation byte", "", "", "", 0, 0, 0)],
    ),
}  # fmt: skip
PIECES = (
    "a", "é", "🦀", " ", "\n", "\n  ", "- ", ": ", "[", "]", "{", "}", ", ", "'", '"', "|", ">-", "#", "&b ", "*b", "!!str ", "!%ED ", "---\n",
    "\r\n", "\t", "\\", "\0",
)  # fmt: skip


def as_told(events):
    """Events without the places that have no meaning."""
    return [(event[0], *EMPTY) if event[0] in ("end", "document") else event for event in events]


class Events(unittest.TestCase):
    def told(self, text, most=MANY, levels=MANY):
        """What the extension tells, and PyYAML as well."""
        found = by_extension(text, most, levels)
        if CSafeLoader:
            other = as_told(islice(yaml_events._by_pyyaml(text, most, levels), len(found)))
            is_same = as_told(found) == other
            # (PyYAML tells more of what is no character of YAML)
            self.assertTrue(is_same or found[-1][1] in other[-1][1] and other[-1][0] == "error", (text, found, other))
        return found

    def test_told(self):
        for name, (text, events) in TOLD.items():
            self.assertEqual(as_told(self.told(text)), as_told(events), name)

    def test_at_random(self):
        generator = random.Random(1)
        for _ in range(5_000):
            self.told("".join(generator.choice(PIECES) for _ in range(generator.randrange(1, 20))))

    def test_parts(self):
        """Each begin of a text with everything."""
        text = "".join(text + "\n---\n" for text, events in TOLD.values() if "error" not in (it[0] for it in events))
        for end in range(len(text)):
            self.told(text[:end])

    def test_bound_of_nodes(self):
        """The node beyond the bound is the last event: documents and ends are no nodes."""
        text = "".join("---\n- [a, *b]\n- {}\n" for _ in range(5))
        nodes = [number for number, it in enumerate(by_extension(text, MANY, MANY)) if it[0] not in ("document", "end")]
        self.assertEqual(len(nodes), 25)
        for most, number in enumerate(nodes):
            self.assertEqual(len(self.told(text, most)), number + 1)
        self.assertEqual(len(self.told(text, 25)), len(self.told(text)))

    def test_bound_of_levels(self):
        text = "[[[a], [[b]]], [c]]"
        self.assertEqual([it[5] for it in self.told(text, MANY, 3)][-1], 8)
        self.assertEqual(len(self.told(text, MANY, 4)), len(self.told(text)))
        self.assertEqual([it[0] for it in self.told(text, MANY, 0)], ["document", "sequence"])

    def test_deep(self):
        """libyaml takes a time that grows with the square of the depth, which has a bound."""
        for text in ("[" * 1_000_000, "{a: " * 300_000, "- " * 500_000, "? " * 500_000):
            begin = time.process_time()
            self.assertEqual(len([it for it in by_extension(text, 50_000, 100) if it[0] in ("sequence", "mapping")]), 101, text[:4])
            self.assertLess(time.process_time() - begin, 5, text[:4])

    def test_large(self):
        self.assertEqual(by_extension("\n" * 10_000_000, 50_000, 100), [])
        self.assertEqual(by_extension("a" * 10_000_000, 50_000, 100)[1][1:], ("a" * 10_000_000, "", "", "", 0, 10_000_000, 0))
        self.assertEqual(len(by_extension("- a\n" * 200_000, 50_000, 100)), 50_002)

    def test_wrong_arguments(self):
        with self.assertRaises(UnicodeEncodeError):
            by_extension("a\ud800", 1, 1)
        for wrong in ((b"a", 1, 1), (None, 1, 1), ("a", "1", 1), ("a", 1), ("a", 2**64, 1)):
            with self.assertRaises((TypeError, OverflowError)):
                by_extension(*wrong)
        self.assertEqual(by_extension("a", -1, -1), [])

    def test_no_leak(self):
        texts = [text for text, _ in TOLD.values()]

        def tell():
            for _ in range(20):
                for text in texts:
                    by_extension(text, 2, 100)
                    by_extension(text, MANY, 1)
            return tracemalloc.get_traced_memory()[0]

        tracemalloc.start()
        try:
            before = tell(), tell()
            self.assertLess(tell(), max(before) + 1_000)
        finally:
            tracemalloc.stop()


if __name__ == "__main__":
    unittest.main()
