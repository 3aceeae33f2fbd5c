"""Trees of queries with Grafana's variables, such as `$__rate_interval`, which are printed back as they were.

>>> from promql import templates
>>> template = templates.parse("rate(foo{job=~'$job'}[$__rate_interval]) > $limit")
>>> [it.variable for it in template.stand_ins]
["'$job'", '$__rate_interval', '$limit']
>>> template.text(template.expr.lhs)
"rate(foo{job=~'$job'}[$__rate_interval])"

PromQL has no variables. So something stands in the tree for each: a name, a number, a length of time, or a string, which is nowhere else in
the query. `stand_ins` says what it is, and `text` prints a tree with the variables in their places again.
"""

from __future__ import annotations

import re
from typing import NamedTuple, Optional, Tuple, Union

import promql

from . import tree
from .checked_queries import QueryChecker
from .grafana_variables import Variables, read_variables
from .queries import PlacedText

_UNITS = {"h": 3_600_000, "m": 60_000, "s": 1_000, "ms": 1}


class TemplateError(promql.Error):
    """It is not known how a query is read with its variables, or a tree has no text with them."""


class StandIn(NamedTuple):
    """What stands for a variable, or for a string with variables in it, as the query spells it: its text in a query, as `1h11m11s100ms`, and
    its value in a tree, as 4271100; of a name or a number a text, too."""

    variable: str
    text: str
    value: Union[str, int]


class Template:
    """A query with variables: its tree, and what stands there for them, in the order of the query."""

    def __init__(self, variables: Variables) -> None:
        self._variables = variables
        self.expr = tree.parse(variables.text)
        self.stand_ins: Tuple[StandIn, ...] = tuple(StandIn(spelling, text, _value(text)) for text, spelling in variables.spelled().items())

    def text(self, expr: Optional[tree.Expr] = None, *, width: Optional[int] = None) -> str:
        """The text of a tree with the variables in it: of the template's, or of one that was made of it; on one line, or laid out where there
        is a `width`. Raises NodeError where the tree has no text, and TemplateError where the variables of the text would not be read as
        they stand in the tree."""
        it = self.expr if expr is None else expr
        text = str(it) if width is None else it.pretty(width=width)
        query = self._variables.put_back(text)
        if self._variables.stand_in(query) != text:
            raise TemplateError(f"the variables would be read otherwise: {query}")
        return query


def parse(query: str) -> Template:
    """The tree of a query with variables. Raises QueryError where it is rejected with what stands for them: the error is about that query.
    Raises TemplateError where it is not known how it is read with them."""
    text = PlacedText()
    text.put(query, 0)
    reading = read_variables(text, QueryChecker())
    if reading.variables is None or reading.unknown:
        raise TemplateError(reading.unknown)
    return Template(reading.variables)


def _value(text: str) -> Union[str, int]:
    """What a tree has where a query has this text."""
    if text.startswith('"'):
        return text[1:-1]
    if re.fullmatch(r"\d+\.\d{3}", text):
        # (seconds since the epoch, after `@`)
        return int(text.replace(".", ""))
    if re.fullmatch(r"(?:\d+[a-z]+)+", text):
        return sum(int(count) * _UNITS[unit] for count, unit in re.findall(r"(\d+)([a-z]+)", text))
    return text
