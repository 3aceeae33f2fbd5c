"""Reads the members of a JSON form, each with its path, so that an error can name it."""

from __future__ import annotations

from typing import Any, Callable, Dict, List, Optional, Sequence, Tuple

from . import Error

LOWEST, HIGHEST = -(2**63), 2**64 - 1
NoneType: type = type(None)


class FormError(Error):
    """A value is no JSON form of a query: `path` is that of the first member at fault, as `$.lhs.args[0].range`, and `message` says what
    was expected there."""

    def __init__(self, path: str, message: str) -> None:
        super().__init__(path, message)
        self.path = path
        self.message = message

    def __str__(self) -> str:
        return f"{self.path}: {self.message}"


def _reader(kinds: Tuple[type, ...], words: str) -> Callable[[Members, str], Any]:
    """What reads the value of a member, which is of one of these types, and in range where it is a number."""

    def read(members: Members, name: str) -> Any:
        found = members.value(name)
        # (a bool is an int of Python)
        if type(found) not in kinds:
            raise members.error(name, f"expected {words}")
        if type(found) is int and not LOWEST <= found <= HIGHEST:
            raise members.error(name, "expected a whole number from -2^63 to 2^64 - 1")
        return found

    return read


class Members:
    """The members of an object of a form, which is the whole or below another one. `end` rejects those that were not read."""

    __slots__ = ("_above", "_step", "depth", "_form", "_read")

    def __init__(self, form: object, above: Optional[Members] = None, step: str = "$") -> None:
        self._above = above
        self._step = step
        # How many forms are above it.
        self.depth: int = 0 if above is None else above.depth + 1
        if not isinstance(form, dict):
            raise FormError(self.path, "expected an object")
        self._form: Dict[Any, Any] = form
        # (an object has few members, and a list of them is smaller than a set)
        self._read: List[str] = []

    @property
    def path(self) -> str:
        """Its path, which is made where an error needs it."""
        steps: List[str] = []
        members: Optional[Members] = self
        while members is not None:
            steps.append(members._step)
            members = members._above
        return ".".join(reversed(steps))

    def has(self, name: str) -> bool:
        return name in self._form

    def value(self, name: str) -> Any:
        """The value of a member, which has to be there."""
        if name not in self._read:
            if name not in self._form:
                raise self.error(name, "expected such a member")
            self._read.append(name)
        return self._form[name]

    def error(self, name: str, message: str) -> FormError:
        return FormError(f"{self.path}.{name}", message)

    def end(self) -> None:
        """Raises FormError where there is a member that was not read."""
        if len(self._form) == len(self._read):
            return
        for name in self._form:
            if not isinstance(name, str):
                raise FormError(self.path, "expected members whose names are strings")
            if name not in self._read:
                raise self.error(name, "unknown member")

    text = _reader((str,), "a string")
    flag = _reader((bool,), "true or false")
    whole = _reader((int,), "a whole number")
    text_or_none = _reader((str, NoneType), "a string or null")
    whole_or_none = _reader((int, NoneType), "a whole number or null")
    items = _reader((list,), "a list")

    def word(self, name: str, words: Sequence[str]) -> str:
        found = self.value(name)
        if not isinstance(found, str) or found not in words:
            raise self.error(name, f"expected one of {', '.join(words)}")
        return found

    def texts(self, name: str) -> Tuple[str, ...]:
        items = self.items(name)
        for number, item in enumerate(items):
            if type(item) is not str:
                raise self.error(f"{name}[{number}]", "expected a string")
        return tuple(items)

    def below(self, name: str) -> Members:
        return Members(self.value(name), self, name)

    def objects(self, name: str) -> List[Members]:
        return [Members(item, self, f"{name}[{number}]") for number, item in enumerate(self.items(name))]
