"""Queries made at random, with what a printed query may lose."""

from __future__ import annotations

import random
from typing import Callable, Dict

import compare
from promql.token_texts import tokens_of

NUMBERS = (
    "0 0.0 0x0 00 .0 0. 0X00 0.000 000.0e5 0 0 0".split(),
    "1 2 0.5 .5 5. 1e3 1E-2 1.5e+1 1e308 1e-320 5e-324 1e-323 2e-324 089.5".split(),
    "Inf inf INF NaN nan NAN iNf".split(),
    "0x1F 0XfF 0x7fffffffffffffff 0x20000000000001 0xE 0xe5 010 0755 0777777777777777777777 08 09.5 0008 01".split(),
)
PLAIN = ("b", "c", "é", "e", " ", "#", "{", "}", "$1", "\u2028", "\x00", "\x7f", "😀", "'", '"')
RAW = ("\\", "\n", r"\x41", r"\xc3", r"\ufffd", "\r", "\t")
ESCAPES = (
    r"\a \b \f \n \r \t \v \\".split(),
    r"\x41 \x00 \101 \x7f \177 \000".split(),
    r"\xc3\xa9 \303\251 \xff \200 \x80 \xC3\251 \377".split(),
    r"\u00e9 \U000000e9 \u2028 \U0001f600 \u0000 \ufffd \ufffe \uFFFD \U0000FFFD \ufeff".split(),
)
FRACTIONS = ("", "", ".5", ".001", ".0005", ".0015", ".4995")
TRIVIA = (" ", "  ", "\n", "\t", "\r", " # a\n", "#\r", "\n# b {\n")


class Maker(compare.Maker):
    """Makes queries with what a printed query may lose: signs, zeros, escapes, digits, fractions, orders."""

    rng: random.Random

    def pick(self, *texts: str) -> str:
        return self.rng.choice(texts)

    def signs(self) -> str:
        return "".join(self.pick("+", "-", "+ ", "- ", "+", "") for _ in range(self.rng.choice((0, 0, 1, 1, 2, 3))))

    def plussed(self, text: str) -> str:
        """The text after signs and in parentheses, in any order, or alone."""
        before = self.pick("", "", "+", "+ ", "++", "+(", "(+", "(", "((+", "+-", "-+", "-")
        return before + text + ")" * before.count("(")

    # ---- numbers and times

    def digits(self, most: int) -> str:
        return "".join(self.pick(*"0123456789") for _ in range(self.rng.randint(1, most)))

    def number(self) -> str:
        long = (
            self.digits(38),
            self.digits(19) + "." + self.digits(19),
            "0." + "0" * self.rng.randint(0, 40) + self.digits(20),
            self.digits(10) + "." + self.digits(8) + f"e{self.rng.randint(-330, 300)}",
            self.digits(20) + "0" * self.rng.randint(0, 40),
        )
        return self.pick(*self.rng.choice((*NUMBERS, NUMBERS[0], long)))

    def scalar(self, depth: int) -> str:
        choice = self.rng.random() if depth > 0 else self.rng.random() * 0.8
        if choice < 0.7:
            return self.signs() + self.number()
        if choice < 0.8:
            return f"{self.signs()}({self.signs()}{self.number()})"
        if choice < 0.95:
            operator = self.pick(*"+ - * / % ^ atan2".split(), "== bool", "< bool", ">= bool")
            return f"{self.scalar(depth - 1)} {operator} {self.scalar(depth - 1)}"
        return self.signs() + str(super().scalar(depth))

    def duration(self) -> str:
        units = [it for it in ("y", "w", "d", "h", "m", "s", "ms") if self.rng.random() < 0.15] or [self.pick("m", "s", "ms", "h")]
        return "".join(f"{self.rng.randint(1, 90)}{unit}" for unit in units)

    def moment(self) -> str:
        whole = self.pick(str(compare.BEGIN + 3000), str(self.rng.randint(0, 40)), "1e9", "0", str(self.rng.randint(0, 2**40)))
        fraction = "" if "e" in whole else self.pick(*FRACTIONS, "." + self.digits(4), "." + self.digits(12))
        return self.pick("", "", "", "-", "+") + whole + fraction

    def times(self) -> str:
        at = self.pick("", "", "", " @ start()", " @ END ( )", f" @ {self.moment()}", f" @ {self.moment()}")
        offset = self.pick("", "", "", f" offset {self.duration()}", f" OFFSET -{self.duration()}")
        return self.pick(at + offset, offset + at)

    # ---- strings and selectors

    def text(self) -> str:
        """A string, in any spelling."""
        quote = self.pick('"', "'", '"', "'", "`")
        return quote + "".join(self.piece(quote) for _ in range(self.rng.choice((0, 1, 1, 2, 3)))) + quote

    def piece(self, quote: str) -> str:
        pieces = self.rng.choice(((PLAIN, RAW) if quote == "`" else (PLAIN, *ESCAPES, ("\\" + quote,))))
        piece = self.pick(*pieces)
        return " " if piece == quote else piece

    def matcher(self) -> str:
        if self.rng.random() < 0.15:
            return self.pick("a", "job", "b") + self.pick("=", "!=") + self.text()
        return self.plain_matcher()

    def plain_matcher(self) -> str:
        label, value = self.pick("a", "a", "a", "job", "b", "le"), self.pick("b", "c", "x", "", "api")
        quote = self.pick('"', "'", "`")
        return label + self.pick("", " ") + self.pick("=", "=", "!=", "=~", "!~") + self.pick("", " ") + quote + value + quote

    def name(self) -> str:
        return self.pick("foo", "foo", "bar_total", "late", "values", "texts", "nope", "nope", "baz_bucket", "by", "start")

    def selector(self) -> str:
        matchers = [self.matcher() for _ in range(self.rng.choice((0, 0, 1, 2, 3, 4)))]
        matchers += self.rng.sample(matchers, 1) if matchers and self.rng.random() < 0.2 else []
        if self.rng.random() < 0.15:
            matchers.insert(self.rng.randint(0, len(matchers)), "__name__" + self.pick("=", "=~") + f'"{self.name()}"')
            return "{" + " , ".join(matchers) + "}"
        return self.name() + ("{" + ",".join(matchers) + self.pick("", ",") + "}" if matchers else self.pick("", "{}"))

    # ---- expressions

    def rare(self) -> str:
        """An expression that some class is about."""
        selector, steps = self.selector(), self.pick("5m:", "1h:7m", "2m:30s")
        # (where each millisecond is a step, only at one time)
        moments = self.pick(f"10ms:1ms] @ {self.moment()}", f"{steps}]{self.times()}")
        return self.pick(
            f"timestamp({self.plussed(selector + self.times())})",
            f"absent({self.plussed(selector + self.times())})",
            f"absent({self.plussed(selector + self.times())})",
            f"absent_over_time({selector}[{self.duration()}]{self.times()})",
            f"absent_over_time(({selector}[{self.duration()}]{self.times()}))",
            f"last_over_time(vector(time())[{moments})",
            f"{self.signs()}vector({self.scalar(1)})",
            f"{self.signs()}vector({self.scalar(1)})",
        )

    def exact(self) -> str:
        """An expression that is other once it is printed exactly if it is of a class."""
        matchers = ",".join(self.plain_matcher() for _ in range(self.rng.choice((1, 2, 3, 4))))
        moment = f"{self.pick('', '-')}{self.rng.randint(0, self.rng.choice((9, 99, 2**20, 2**40)))}.{self.rng.randint(0, 999):03}"
        present = self.pick("foo", "{__name__='foo'}") + self.pick("", f" @ {compare.BEGIN + 3001}", " offset 1m")
        return self.pick(
            self.text(),
            f"absent({self.plussed(f'nope{{{matchers}}}{self.times()}')})",
            f"absent_over_time(nope{{{matchers}}}[5m]{self.times()})",
            f"absent_over_time((({{{matchers},__name__='nope'}}[5m])))",
            f"timestamp({self.plussed(present)})",
            f"last_over_time(vector(time())[10ms:1ms] @ {moment}5)",
            f"last_over_time(vector(time())[10ms:1ms] @ {moment}{self.pick('4', '49', '51', '')}{'9' * self.rng.randint(1, 20)})",
            f"last_over_time(vector(time())[10ms:1ms] @ {self.rng.randint(0, 10**7)}5e-4)",
        )

    def instant(self, depth: int) -> str:
        choice = self.rng.random()
        if choice < 0.3:
            return self.rare()
        inner = str(super().instant(depth if choice > 0.45 else depth - 1))
        if choice < 0.4:
            return self.signs() + inner
        if choice < 0.45:
            text = self.text()
            return self.pick(f'label_replace({inner}, "x", {text}, "job", ".*")', f"label_join({inner}, 'x', {text}, 'job', 'a')")
        return inner

    def query(self) -> str:
        kinds: Dict[Callable[[], str], int] = {
            lambda: self.instant(2): 8,
            lambda: self.instant(3): 8,
            lambda: str(self.matrix(2)): 1,
            lambda: self.scalar(2): 4,
            self.text: 1,
        }
        query = self.rng.choices(list(kinds), list(kinds.values()))[0]()
        return self.spaced(query) if self.rng.random() < 0.1 else query

    def spaced(self, query: str) -> str:
        """The query with other white space and comments between its tokens, but not within brackets."""
        at, parts, is_within = 0, [], False
        for token in tokens_of(query):
            parts += [query[at : token.start] if is_within else self.pick(query[at : token.start], *TRIVIA), token.text]
            at, is_within = token.end, token.text == "[" or is_within and token.text != "]"
        return "".join(parts)
