"""Draws the tree of a query as a picture in SVG.

The root is at the left, and each level has a column. A node without nodes below has a row of its own; any other is in the middle
between the first and the last one below. So no two boxes overlap, and no line crosses a box.
"""

from __future__ import annotations

import html
import unicodedata
from dataclasses import dataclass, field
from itertools import accumulate
from typing import List, Optional

import promql

from .labels import children_of, kind_of, labels_of, nodes_of
from .terminal import visible

_CHARACTER = 7.8  # the width of a character of the labels
_KIND_CHARACTER = 6.6
_PADDING = 8
_BOX_HEIGHT = 42
_ROW_HEIGHT = 54
_GAP = 40
_MARGIN = 4
_LONGEST_LABEL = 60


@dataclass(eq=False, repr=False)
class Box:
    """A node in the picture; `x` is its left side, `y` its middle."""

    kind: str
    label: str
    level: int = 0
    parent: Optional[Box] = None
    below: List[Box] = field(default_factory=list)
    x: float = 0
    y: float = 0

    @property
    def shown(self) -> str:
        """The label, cut off where it is long."""
        return self.label if len(self.label) <= _LONGEST_LABEL else self.label[: _LONGEST_LABEL - 1] + "…"

    @property
    def label_width(self) -> float:
        return _CHARACTER * sum(map(_columns, self.shown))

    @property
    def width(self) -> float:
        return max(self.label_width, _KIND_CHARACTER * len(self.kind)) + 2 * _PADDING

    @property
    def height(self) -> float:
        return _BOX_HEIGHT


def layout(query: str) -> List[Box]:
    """The boxes of a query's tree at their places, each before those below it. Raises NumberTooWideError where it has no JSON form."""
    boxes = _boxes(query)
    _place_rows(boxes)
    _place_columns(boxes)
    return boxes


def svg(query: str) -> str:
    """The picture. Its colours are those of the page: the classes are `edge`, `node`, the kind of a node, `kind` and `label`. Raises as
    `layout` does."""
    boxes = layout(query)
    width = max(box.x + box.width for box in boxes) + _MARGIN
    height = max(box.y for box in boxes) + _BOX_HEIGHT / 2 + _MARGIN
    size = f'width="{width:g}" height="{height:g}" viewBox="0 0 {width:g} {height:g}"'
    edges = "".join(_edge(box.parent, box) for box in boxes if box.parent)
    nodes = "".join(map(_node, boxes))
    return f'<svg xmlns="http://www.w3.org/2000/svg" role="img" aria-label="the tree" {size}>{edges}{nodes}</svg>'


def _boxes(query: str) -> List[Box]:
    line = promql.canonical(query)
    nodes = nodes_of(promql.parse(line))
    boxes = {id(node): Box(kind_of(node), visible(label)) for node, label in zip(nodes, labels_of(line, nodes))}
    for node in nodes:
        box = boxes[id(node)]
        box.below = [boxes[id(child)] for child in children_of(node)]
        for below in box.below:
            below.level, below.parent = box.level + 1, box
    return list(boxes.values())


def _place_rows(boxes: List[Box]) -> None:
    y = _MARGIN + _BOX_HEIGHT / 2
    for box in boxes:
        if not box.below:
            box.y = y
            y += _ROW_HEIGHT
    for box in reversed(boxes):
        if box.below:
            box.y = (box.below[0].y + box.below[-1].y) / 2


def _place_columns(boxes: List[Box]) -> None:
    widths = [0.0] * (max(box.level for box in boxes) + 1)
    for box in boxes:
        widths[box.level] = max(widths[box.level], box.width)
    lefts = list(accumulate(widths, lambda left, width: left + width + _GAP, initial=float(_MARGIN)))
    for box in boxes:
        box.x = lefts[box.level]


def _columns(character: str) -> int:
    """How many columns of a fixed font a character takes."""
    if unicodedata.combining(character):
        return 0
    return 2 if unicodedata.east_asian_width(character) in "FW" else 1


def _edge(parent: Box, box: Box) -> str:
    left, right = parent.x + parent.width, box.x
    middle = (left + right) / 2
    return f'<path class="edge" d="M{left:g} {parent.y:g}C{middle:g} {parent.y:g} {middle:g} {box.y:g} {right:g} {box.y:g}"/>'


def _node(box: Box) -> str:
    top, text_x = box.y - _BOX_HEIGHT / 2, box.x + _PADDING
    rect = f'<rect x="{box.x:g}" y="{top:g}" width="{box.width:g}" height="{_BOX_HEIGHT}" rx="6"/>'
    kind = f'<text class="kind" x="{text_x:g}" y="{top + 15:g}">{box.kind}</text>'
    # (the length holds whatever font there is)
    length = f'textLength="{box.label_width:g}" lengthAdjust="spacingAndGlyphs"'
    label = f'<text class="label" x="{text_x:g}" y="{top + 33:g}" {length}>{html.escape(box.shown)}</text>'
    title = f"<title>{html.escape(box.label)}</title>"
    return f'<g class="node {box.kind.replace(" ", "-")}">{title}{rect}{kind}{label}</g>'
