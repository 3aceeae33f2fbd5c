"""Grafana's variables in queries: what stands in for one while a query is read and laid out, and how it comes back.

PromQL has no variables. So each is read as a token of its kind that is nowhere else in the query: a word in a string or a name, a
duration in brackets, a number. Where the place of a variable does not tell its kind, kinds are tried until the query is accepted. A
string with variables is checked with words in it, and comes back as it is written, since its quotes may matter to a value.
"""

from __future__ import annotations

import re
from functools import lru_cache
from itertools import islice, product
from typing import Dict, Iterator, List, Match, NamedTuple, Optional, Sequence, Tuple

import promql

from .checked_queries import QueryChecker
from .queries import Edit, PlacedText, edited
from .token_texts import MATCHER_SIGNS, Token, code_of, pattern_operators

_NAMES = r"[A-Za-z_]\w*"
# `$x`, `${x}`, `${x:format}`, `${x.field}`, `[[x]]` and `[[x:format]]`.
VARIABLE = re.compile(rf"\$({_NAMES})|\$\{{({_NAMES})(?:[.:][^}}{{$]*)?\}}|\[\[({_NAMES})(?::\w+)?\]\]", re.ASCII)
# After a backslash nobody knows what a variable makes.
_ESCAPED = re.compile(r"\\(?:\$|\[\[)")
# What may make one number of what is before and after it.
_SIGN = re.compile(r"[-+](?=[0-9$\[])")
_PART_OF_NUMBER = re.compile(r"[0-9.]*[eE]?[0-9.]*")
# How errors begin that depend on the values of strings.
_OF_VALUES = ("illegal regex", "vector selector must contain")
# What a variable may be read as, beside the name of a function.
_WORD, _NUMBER, _DURATION, _TIME = ("word",), ("number",), ("duration",), ("time",)
_MATCHER, _STRING = ("matcher",), ("string",)
# Series over a range.
_RANGE = ("range",)
# A string with variables in it.
_TEXT = ("text",)
# A function of each type, or more.
_FUNCTIONS = tuple("stdvar sgn last_over_time quantile group ceil present_over_time quantile_over_time scalar".split())
_NUMBERS = ("__interval_ms", "__range_ms", "__range_s", "__from", "__to")
_MOST_TRIALS = 64
# Bytes that are read in all trials of a query, but for the first one.
_MOST_READ = 200_000
MOST_TEXTS = 600


class Place(NamedTuple):
    """A variable in a query, or a token that has some, as `${x}s` or a string: where it is, and what it may be read as."""

    start: int
    end: int
    kinds: Tuple[str, ...]
    # Whether the place tells the kind, so that an error there is one of the query.
    is_sure: bool


class Span(NamedTuple):
    """Where a variable is in a query that is checked."""

    start: int
    end: int
    is_sure: bool
    # Whether it is read as a function, whose arguments may then be wrong.
    is_function: bool


# The kinds that are read at places that have several, by the texts there.
Choice = Dict[Tuple[str, Tuple[str, ...]], str]


class Variables:
    """How the variables of a query are read: a text that stands in for each, by its kind and how it is spelled."""

    def __init__(self, original: str, choice: Choice) -> None:
        self.original = original
        self._choice = choice
        places = places_of(original)
        words = {(found[0], "word") for place in places if place.kinds == _TEXT for found in _variables(original, place)}
        used = sorted(words.union(self._use(original, place) for place in places))
        self._texts = dict(zip(used, _texts(original, used)))
        self._spelled = {text: spelling for (spelling, _), text in self._texts.items()}
        found = sorted(self._spelled, key=len, reverse=True)
        self._stand_ins = re.compile("|".join(map(re.escape, found)) or r"(?!)")
        self.text: str = self.stand_in(original) or ""

    def spelled(self) -> Dict[str, str]:
        """The texts that stand in the query as it is laid out, each with the variable or the string that it stands for, in the order in which
        they come first."""
        places = {found[0]: found.start() for found in reversed(list(self._stand_ins.finditer(self.text)))}
        return {text: self._spelled[text] for text in sorted(places, key=places.__getitem__)}

    def are_told_apart(self) -> bool:
        return len(self._spelled) == len(self._texts)

    def checked(self, text: PlacedText) -> Tuple[PlacedText, List[Span]]:
        """The query as it is checked, and where the variables are in that."""
        made, original, at = PlacedText(), text.text, 0
        spans: List[Span] = []
        for place in places_of(original):
            in_string = place.kinds == _TEXT
            for start, end in [found.span() for found in _variables(original, place)] if in_string else [place[:2]]:
                spelling = original[start:end]
                use = (spelling, "word") if in_string else self._use(original, place)
                made.copy(text, at, start)
                begin, at = len(made.offsets), end
                made.put_each(self._texts[use], [text.offsets[start]] * len(self._texts[use]))
                spans.append(Span(begin, len(made.offsets), place.is_sure, use[1] in _FUNCTIONS))
        made.copy(text, at, len(original))
        return made, spans

    def put_back(self, text: str) -> str:
        """A text with the variables in it again."""
        return self._stand_ins.sub(lambda found: self._spelled[found[0]], text)

    def stand_in(self, query: str) -> Optional[str]:
        """A query with these variables as it is laid out; or nothing where one has a place that this query has not."""
        made, at = "", 0
        for place in places_of(query):
            stand_in = self._texts.get(self._use(query, place))
            if stand_in is None:
                return None
            made, at = made + query[at : place.start] + stand_in, place.end
        return made + query[at:]

    def come_back(self, new: str) -> Optional[str]:
        """The query that was laid out with its variables in it again; or nothing, where they would not all come back."""
        query = self.put_back(new)
        counts = [sorted(found[0] for found in self._stand_ins.finditer(text)) for text in (self.text, new)]
        return query if counts[0] == counts[1] and self.stand_in(query) == new else None

    def _use(self, text: str, place: Place) -> Tuple[str, str]:
        spelling = text[place.start : place.end]
        return spelling, self._choice.get((spelling, place.kinds), (*place.kinds, "")[0])


def _variables(text: str, place: Place) -> Iterator[Match[str]]:
    return VARIABLE.finditer(text, place.start, place.end)


class Reading(NamedTuple):
    """A query with variables, as it is read."""

    # Nothing where there are too many.
    variables: Optional[Variables]
    # As it is checked.
    text: PlacedText
    # Why it is not known whether it is right, or nothing.
    unknown: str


def read_variables(text: PlacedText, checker: QueryChecker) -> Reading:
    """The first reading of a query that is accepted, or the one that is accepted for the longest part."""
    best: Tuple[int, Optional[Reading]] = (-1, None)
    for variables in _trials(text.text):
        if best[1] and not checker.tries(text.text, len(places_of(text.text))):
            break
        made, spans = variables.checked(text)
        reading = Reading(variables, made, "")
        error = _error(made.text, checker)
        if not isinstance(error, promql.QueryError):
            return reading
        if error.start > best[0]:
            is_doubtful = any(_is_doubtful(error, span) for span in spans)
            best = error.start, reading._replace(unknown=_unknown(text.text) if is_doubtful else "")
    return best[1] or Reading(None, text, _unknown(text.text))


def _error(query: str, checker: QueryChecker) -> Optional[ValueError]:
    """Why a query is rejected; or nothing, also where the patterns of its file are too large together, as is told later.

    Most are rejected for their syntax, or for types. So a query with patterns is looked at before without them.
    """
    patterns = pattern_operators(query)
    if patterns:
        error = checker.error(edited(query, (Edit(it.start, it.end, "= " if it.text == "=~" else "!=") for it in patterns)))
        if isinstance(error, promql.QueryError) and not error.reason.startswith(_OF_VALUES):
            return error
    return checker.error(query) if checker.admits(query) else None


def _unknown(query: str) -> str:
    names = dict.fromkeys(found[1] or found[2] or found[3] for found in VARIABLE.finditer(query))
    return f"it is not read with its variables of Grafana ({', '.join(names)}): `check --variable NAME=VALUE` gives them values"


def _is_doubtful(error: promql.QueryError, span: Span) -> bool:
    """Whether an error may be one of what stands in for a variable: it is there, or at the token after it."""
    touches = span.start <= error.end and not error.query[span.end : error.start].strip()
    return span.is_function or touches and (not span.is_sure or error.reason.startswith(_OF_VALUES))


def _trials(query: str) -> Iterator[Variables]:
    """The ways to read the variables of a query, the most likely one first."""
    # (there may be many)
    if sum(1 for _ in islice(VARIABLE.finditer(query), MOST_TEXTS + 1)) > MOST_TEXTS:
        return
    places = places_of(query)
    if any(not place.kinds for place in places):
        return
    open_places = sorted({(query[place.start : place.end], place.kinds) for place in places if len(place.kinds) > 1})
    most = min(_MOST_TRIALS, 1 + _MOST_READ // (len(query) + 1))
    for kinds in islice(product(*(kinds for _, kinds in open_places)), most):
        variables = Variables(query, dict(zip(open_places, kinds)))
        if variables.are_told_apart():
            yield variables


def _texts(query: str, uses: Sequence[Tuple[str, str]]) -> Iterator[str]:
    """What stands in for variables that are spelled and used so: texts that the query has not, and that are printed as they are.

    They depend on which variables there are, and not on their order, and words are as wide as the variables where they can be: so the
    query that is laid out is laid out in the same way again.
    """
    word = next(word for word in ("zqv" + "v" * count for count in range(len(query) + 2)) if word not in query)
    number = next((str(begin) for begin in range(7000, 10_000) if str(begin) not in query), "")
    length = next((f"{hours}h11m11s" for hours in range(1, 24) if f"{hours}h11m11s" not in query), "")
    for index, (spelling, kind) in enumerate(uses):
        letters = f"{word}{chr(97 + index // 26)}{chr(97 + index % 26)}"
        texts = {
            "word": letters.ljust(len(spelling), "z"),
            **dict.fromkeys(("text", "string"), '"' + letters.ljust(len(spelling) - 2, "z") + '"'),
            "matcher": f'{letters}="{"z" * (len(spelling) - len(letters) - 3)}"',
            "number": f"{number}{100 + index}",
            "duration": f"{length}{100 + index}ms",
            "time": f"{number}{100 + index}.001",
            "range": f"{letters}[{length}{100 + index}ms]",
        }
        yield texts.get(kind, kind)


# (a query is read several times, for each trial of what its variables may be)
@lru_cache(maxsize=32)
def places_of(query: str) -> Tuple[Place, ...]:
    """The variables of a query, in their order."""
    return tuple(_places(query))


def _places(query: str) -> Iterator[Place]:
    variables = [found.span() for found in VARIABLE.finditer(query)]
    tokens = _spans(query)
    opened: List[str] = []
    next_one = 0
    for number, (start, end) in enumerate(tokens):
        if end - start == 1 and query[start] in "([{":
            opened.append(query[start])
        elif end - start == 1 and query[start] in ")]}" and opened:
            opened.pop()
        # (comments have variables, too)
        while next_one < len(variables) and variables[next_one][0] < start:
            next_one += 1
        if next_one == len(variables):
            return
        if variables[next_one][0] >= end:
            continue
        token = Token("", query[start:end], start, end)
        if token.is_quoted and not token.is_open:
            yield Place(start, end, _TEXT, not _ESCAPED.search(token.text))
        else:
            yield from _in_run(query, token, tokens, number, opened[-1] if opened else "")


def _spans(query: str) -> List[Tuple[int, int]]:
    """The tokens of a query, which are read with words in the place of its variables. Of words and numbers those that touch are one."""
    read = VARIABLE.sub(lambda variable: "z" * len(variable[0]), query)
    found: List[Tuple[int, int]] = []
    run_end = -1
    for _, _, start, end in code_of(read):
        is_in_run = _is_in_run(read, start, end)
        if is_in_run and start == run_end:
            start = found.pop()[0]
        run_end = end if is_in_run else -1
        found.append((start, end))
    return found


def _is_in_run(query: str, start: int, end: int) -> bool:
    """Whether a token is a word, a number, or an error that may be a part of one."""
    last = query[end - 1]
    return (last.isalnum() or last in "_.") and query[start] not in "\"'`" and query[start:end].isascii()


def _in_run(query: str, token: Token, tokens: Sequence[Tuple[int, int]], number: int, opened: str) -> Iterator[Place]:
    """The variables of a token, or the token as a whole where it is none but with a value, as `[${x}s]`."""
    around = [tokens[at] if 0 <= at < len(tokens) else (0, 0) for at in (number - 2, number - 1, number + 1)]
    far, before, after = (query[start:end].lower() for start, end in around)
    if before in ("-", "+") and number > 1 and far in ("offset", "@"):
        before = far
    found = None if token.is_open else _as_token(query, token, before, after, opened)
    if found:
        yield Place(token.start, token.end, *found)
        return
    for variable in VARIABLE.finditer(token.text):
        yield Place(token.start + variable.start(), token.start + variable.end(), _WORD, False)


def _as_token(query: str, token: Token, before: str, after: str, opened: str) -> Optional[Tuple[Tuple[str, ...], bool]]:
    """What a token with variables may be as a whole, and whether that is sure; or nothing where it is a name with variables in it."""
    rest, is_variable = VARIABLE.sub("", token.text), VARIABLE.fullmatch(token.text)
    if ":" in rest:
        return None
    if not is_variable and _SIGN.match(query, token.end) and _PART_OF_NUMBER.fullmatch(rest):
        # (`1$x-5` may be one number, and has no white space then)
        return (), False
    if opened == "[" or before == "offset":
        return _DURATION, True
    if before == "@":
        return _TIME, after != "("
    if "." in rest or token.text[0].isdigit():
        return _NUMBER, False
    if opened != "{" and after in ("(", "by", "without"):
        # (those names that the query has not)
        return (*(name for name in _FUNCTIONS if name not in query), *_WORD), False
    return (_kinds(token.text, before, after, opened), False) if is_variable else None


def _kinds(variable: str, before: str, after: str, opened: str) -> Tuple[str, ...]:
    """What a variable that is a token of its own may be, by what is around it; the most likely one first."""
    if opened == "{":
        return _WORD if after in MATCHER_SIGNS else _STRING if before in MATCHER_SIGNS else _MATCHER
    if variable.strip("${}[]").partition(":")[0] in _NUMBERS:
        return (*_NUMBER, *_WORD)
    return (*_WORD, *_NUMBER, *_STRING, *_RANGE)
