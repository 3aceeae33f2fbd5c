"""YAML by ruamel.yaml, which decides: it is slow, tells where each token is, and has the messages."""

from __future__ import annotations

import importlib
import warnings
from typing import Any, Dict, List

from .checked_queries import NO_BOUND, Budget
from .files import BoundError, Fault, FileError, Source, Unclear, nested_too_deeply
from .scalars import Node, Token

# As many characters as a token takes the time of.
_TOKEN = 8
_MOST_LEVELS = 400
# What a token adds to the number of brackets that are open.
_DEPTHS = {"[": 1, "{": 1, "]": -1, "}": -1}


class ExactYaml:
    """A text as ruamel.yaml reads it."""

    def __init__(self, source: Source, budget: Budget = NO_BOUND, unclear: Unclear = Unclear()) -> None:
        self.source = source
        self._budget = budget
        self._unclear = unclear
        # Those of scalars, by their ends.
        self._tokens: Dict[int, Token] = {}
        self.take(len(source.text), unclear.at)
        self.roots = _Converter().documents(_compose(source, self))
        self.has_aliases = True

    def take(self, characters: int, at: int) -> None:
        """Counts what is read."""
        if not self._budget.takes(characters):
            most = f"ruamel.yaml reads at most {self._budget.most:,} characters of a file (--max-exact-yaml)"
            raise BoundError.of(self.source, at, f"{self._unclear.why}, and {most}")

    def note(self, token: Any, before: int, in_flow: bool) -> None:
        """Takes a token of the text, which stands for more characters where there are many."""
        self.take(_TOKEN, token.start_mark.index)
        if token.id == "<scalar>":
            self._tokens[token.end_mark.index] = Token(token.start_mark.index, before, in_flow)

    def refuse(self) -> None:
        """No other reader knows better."""

    def token(self, key: Node, value: Node) -> Token:
        return self._tokens[value.end]


class _Converter:
    """Makes nodes of those of ruamel.yaml, without recursion, each once."""

    def __init__(self) -> None:
        self._made: Dict[int, Node] = {}
        # The collections that have no nodes yet.
        self._todo: List[Any] = []

    def documents(self, roots: List[Any]) -> List[Node]:
        made = [self._node(root) for root in roots]
        while self._todo:
            collection = self._todo.pop()
            node = self._made[id(collection)]
            if collection.id == "sequence":
                node.value = [self._node(item) for item in collection.value]
            else:
                node.value = [(self._node(key), self._node(value)) for key, value in collection.value]
        return made

    def _node(self, found: Any) -> Node:
        node = self._made.get(id(found))
        if not node:
            is_scalar = found.id == "scalar"
            style = (found.style or "") if is_scalar else "{" * bool(found.flow_style)
            start = found.start_mark
            place = (start.index, found.end_mark.index, start.column)
            node = Node(found.id, found.value, str(found.tag), style, found.anchor or "", *place, False)
            self._made[id(found)] = node
            if not is_scalar:
                self._todo.append(found)
        return node


def _compose(source: Source, text: ExactYaml) -> List[Any]:
    """The nodes of each document of a file, whose tokens the text is told of."""
    yaml: Any = importlib.import_module("ruamel.yaml")
    reader = yaml.YAML(typ="safe", pure=True)
    reader.Scanner = _noting_scanner(yaml, text)
    try:
        with warnings.catch_warnings():
            # (an anchor may be there again)
            warnings.simplefilter("ignore")
            return list(reader.compose_all(source.text))
    except yaml.error.MarkedYAMLError as error:
        mark = error.problem_mark or error.context_mark
        offset = mark.index if mark else 0
        raise FileError.at(source, Fault(offset, offset, f"not YAML: {error.problem or error.context}")) from error
    except yaml.reader.ReaderError as error:
        fault = Fault(error.position, error.position, "not YAML: a character that is not allowed")
        raise FileError.at(source, fault) from error
    except (yaml.error.YAMLError, ValueError, OverflowError) as error:
        raise FileError(f"{source.name}: not YAML: {error}") from error


def _noting_scanner(yaml: Any, text: ExactYaml) -> Any:
    """The class of ruamel.yaml that finds tokens, which tells the text of each: so it is scanned once."""
    scanner: Any = yaml.scanner.Scanner

    class NotingScanner(scanner):  # type: ignore[misc]
        before, depth = 0, 0

        def fetch_flow_collection_start(self, *arguments: Any, **options: Any) -> None:
            # (each bracket that is open makes each token after it take longer)
            if self.flow_level > _MOST_LEVELS:
                raise nested_too_deeply(text.source.name)
            super().fetch_flow_collection_start(*arguments, **options)

        def get_token(self) -> Any:
            token = super().get_token()
            text.note(token, self.before, self.depth > 0)
            self.depth += _DEPTHS.get(token.id, 0)
            self.before = token.end_mark.index
            return token

    return NotingScanner
