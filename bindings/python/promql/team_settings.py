"""Settings of a team, from a file: `.promql.toml`, or `[tool.promql]` of a pyproject.toml, the nearest one above the file that is looked at.

Options of the command line come before them.
"""

from __future__ import annotations

import argparse
import importlib
import importlib.util
import os
import re
from contextlib import contextmanager
from fnmatch import fnmatchcase
from functools import lru_cache
from typing import Any, Callable, Dict, Iterator, List, NamedTuple, Tuple

from . import limits, set_limits
from .checked_queries import VERDICTS, FileBounds
from .documents import Target
from .files import FileError
from .messages import SEVERITIES
from .options import MOST, PEOPLE, STYLES, WIDTH

_NAMES = (".promql.toml", "pyproject.toml")
# (the readers of TOML take a time that grows with the square of the parts of a key)
_MOST_CHARACTERS, _LONGEST_LINE = 65_536, 4_096
# What a pyproject.toml with settings has; others need no reader of TOML.
_SECTION = re.compile(r"^[^\S\n]*\[\s*tool\s*(?:\]|\.\s*[\"']?promql\b)", re.M)
# The limits of a query without settings.
_UNSET = limits()
Table = Dict[str, Any]
Steps = Tuple[Tuple[bool, str], ...]
# The options of a run as they are completed, by the file of settings and its steps, with the limits of a query.
_COMPLETED: Dict[Tuple[str, Steps], Tuple[argparse.Namespace, Dict[str, int]]] = {}


def _is_list(kind: type) -> Callable[[Any], bool]:
    return lambda value: isinstance(value, list) and all(isinstance(item, kind) for item in value)


def _is_number(value: Any) -> bool:
    return isinstance(value, int) and not isinstance(value, bool) and 0 <= value <= MOST


def _one_of(words: Tuple[str, ...]) -> Tuple[Callable[[Any], bool], str]:
    return (lambda value: value in words), f"one of {', '.join(words)}"


_TEXTS, _NUMBER = (_is_list(str), "a list of texts"), (_is_number, f"a number from 0 to {MOST}")
# The keys of each table: whether a value is right, and what it is to be.
_CODES = {"select": _TEXTS, "ignore": _TEXTS, "add": _TEXTS}
_KEYS: Dict[str, Dict[str, Tuple[Callable[[Any], bool], str]]] = {
    "": {
        **_CODES, "exclude": _TEXTS, "fail-on": _one_of(SEVERITIES), "strict": (lambda value: isinstance(value, bool), "true or false"),
        "width": _NUMBER, "style": _one_of(STYLES), "limits": (lambda value: isinstance(value, dict), "a table"),
        "paths": (_is_list(dict), "a list of tables"),
    },
    "limits": {name.replace("_", "-"): _NUMBER for name in (*limits(), *FileBounds._fields)},
    "paths": {"files": _TEXTS, "ignore": _TEXTS, "add": _TEXTS},
}


class TeamSettings(NamedTuple):
    """What a file says, and its folder."""

    file: str = ""
    table: Table = {}

    def is_left_out(self, name: str) -> bool:
        return self._matches(name, self.table.get("exclude", ()))

    def steps(self, name: str) -> Steps:
        """Which codes of the linter are looked for in a file, and which are not: the last step that means a code counts."""
        found: List[Tuple[bool, str]] = []
        tables = [it for it in self.table.get("paths", ()) if self._matches(name, it.get("files", ()))]
        for table in (self.table, *tables):
            found += [(False, word) for word in table.get("ignore", ())] + [(True, word) for word in table.get("add", ())]
        return tuple(found)

    def _matches(self, name: str, patterns: List[str]) -> bool:
        """Whether a file is meant by one of these patterns: its path below the folder of the settings, or for a pattern without a
        stroke the name of it or of a folder of it."""
        path = os.path.relpath(os.path.abspath(name), os.path.dirname(os.path.abspath(self.file))) if patterns else ""
        parts = path.split(os.sep)
        return any(
            fnmatchcase(path, pattern) or "/" not in pattern and any(fnmatchcase(part, pattern) for part in parts)
            for pattern in patterns
        )


def with_settings(arguments: argparse.Namespace, target: Target) -> Tuple[argparse.Namespace, TeamSettings]:
    """The options as the settings for a file complete them. Sets the limits of a query, too."""
    is_file = target.query is None and target.name != "-"
    settings = _read(arguments.config) if arguments.config is not None else _found(_folder_of(target.name) if is_file else os.getcwd())
    steps = () if getattr(arguments, "select", ()) else settings.steps(target.name)
    key = settings.file, steps
    if key not in _COMPLETED:
        _COMPLETED[key] = _completed(arguments, settings.table, steps)
    merged, bounds = _COMPLETED[key]
    _limit(bounds)
    return merged, settings


def _completed(arguments: argparse.Namespace, table: Table, steps: Steps) -> Tuple[argparse.Namespace, Dict[str, int]]:
    """The options as settings complete them, and the limits of a query."""
    merged = argparse.Namespace(**vars(arguments))
    bounds = {key.replace("-", "_"): value for key, value in table.get("limits", {}).items()}
    bounds.update({name: vars(arguments)[name] for name in _UNSET if vars(arguments).get(name) is not None})
    defaults = {
        **{name: bounds.pop(name, most) for name, most in FileBounds()._asdict().items()},
        "fail_on": table.get("fail-on"),
        "width": table.get("width", WIDTH),
        "style": table.get("style", PEOPLE),
    }
    for name, value in defaults.items():
        if getattr(merged, name, None) is None:
            setattr(merged, name, value)
    merged.strict, merged.steps = arguments.strict or table.get("strict", False), steps
    if not getattr(arguments, "select", ()):
        merged.select = [tuple(table["select"])] if table.get("select") else []
    return merged, bounds


def settings_of(name: str) -> TeamSettings:
    """The settings for a file, which are read anew."""
    _found.cache_clear()
    _read.cache_clear()
    return _found(_folder_of(name))


def _folder_of(name: str) -> str:
    return os.path.dirname(os.path.abspath(name))


@contextmanager
def settings_read_anew() -> Iterator[None]:
    """Reads the files of settings anew meanwhile, and leaves the limits of a query as they were before."""
    _COMPLETED.clear()
    _found.cache_clear()
    _read.cache_clear()
    before = limits()
    _UNSET.update(before)
    try:
        yield
    finally:
        _limit(before)


def _limit(bounds: Dict[str, int]) -> None:
    """Sets limits of a query; those that are not said are as they were before all settings."""
    wanted = {**_UNSET, **bounds}
    if wanted != limits():
        set_limits(**wanted)
        VERDICTS.forget()


@lru_cache(maxsize=None)
def _found(folder: str) -> TeamSettings:
    """The settings for the files of a folder."""
    for name in _NAMES:
        path = os.path.join(folder, name)
        if os.path.isfile(path):
            settings = _read(path)
            if settings.file:
                return settings
    above = os.path.dirname(folder)
    return _found(above) if above != folder else TeamSettings()


@lru_cache(maxsize=None)
def _read(path: str) -> TeamSettings:
    """The settings of a file; none where it is a pyproject.toml without them."""
    try:
        with open(path, encoding="utf-8-sig") as file:
            text = file.read(_MOST_CHARACTERS + 1)
    except OSError as error:
        raise FileError(f"{path}: {error.strerror}") from error
    except UnicodeDecodeError as error:
        raise FileError(f"{path}: not UTF-8 at byte {error.start}") from error
    if len(text) > _MOST_CHARACTERS or any(len(line) > _LONGEST_LINE for line in text.splitlines()):
        raise FileError(f"{path}: settings have at most {_MOST_CHARACTERS:,} characters, and {_LONGEST_LINE:,} in a line")
    is_project = os.path.basename(path) == "pyproject.toml"
    if is_project and not _SECTION.search(text):
        return TeamSettings()
    table = _parsed(path, text)
    if is_project:
        table = table.get("tool", {}).get("promql") if isinstance(table.get("tool", {}), dict) else None
        if table is None:
            return TeamSettings()
    if not isinstance(table, dict):
        raise FileError(f"{path}: `tool.promql` is not a table")
    _look_at(path, table, "")
    return TeamSettings(path, table)


def _parsed(path: str, text: str) -> Any:
    parser = next((name for name in ("tomllib", "tomli") if importlib.util.find_spec(name)), "")
    if not parser:
        raise FileError(f"{path}: settings need Python 3.11 or tomli: `pip install tomli`")
    try:
        return importlib.import_module(parser).loads(text)
    except RecursionError as error:
        raise FileError(f"{path}: nested too deeply") from error
    except ValueError as error:
        what, _, place = str(error).partition(" (at line ")
        at = f":{place[:-1].replace(', column ', ':')}" if place else ""
        raise FileError(f"{path}{at}: not TOML: {what}") from error


def _look_at(path: str, table: Table, part: str) -> None:
    """Looks whether a table has known keys alone, and right values."""
    keys = _KEYS[part]
    for key, value in table.items():
        name = f"{part}.{key}".lstrip(".")
        if key not in keys:
            raise FileError(f"{path}: no setting is called `{name}`: {', '.join(keys)}")
        is_right, what = keys[key]
        if not is_right(value):
            raise FileError(f"{path}: `{name}` is not {what}")
        unknown = importlib.import_module(".lint", __package__).unknown_words(value) if key in _CODES else ()
        if unknown:
            raise FileError(f"{path}: `{name}`: no rule has a code that begins with {unknown[0]!r}")
        for inner in [value] if key == "limits" else value if key == "paths" else ():
            _look_at(path, inner, key)
    if part == "paths" and "files" not in table:
        raise FileError(f"{path}: `paths` without `files`")
