"""What an editor may ask for, by options of the command or in `initializationOptions`, and what the team's settings add for a file."""

from __future__ import annotations

from typing import Any, NamedTuple
from urllib.parse import unquote, urlsplit

from ..files import FileError
from ..lint.table import REJECTED, Selection
from ..options import PEOPLE, STYLES, WIDTH
from ..team_settings import TeamSettings, settings_of

_LONGEST_PATH = 4_096


class Settings(NamedTuple):
    # How queries of files are laid out, where the editor or the team says it; one with a comment is laid out for people in any case.
    style: str = ""
    # Whether findings of the linter are shown.
    lints: bool = True
    width: int = WIDTH
    # (what is rejected is told by the library)
    selection: Selection = Selection(ignored=(REJECTED,))
    # Whether the team looks at no such file, and why its settings cannot be read.
    is_left_out: bool = False
    fault: str = ""

    def with_options(self, options: Any) -> Settings:
        """These, but for the members `style` and `lint` that an editor gives. What is none of them counts for nothing."""
        if not isinstance(options, dict):
            return self
        style, lints = options.get("style"), options.get("lint")
        return Settings(style if style in STYLES else self.style, lints if isinstance(lints, bool) else self.lints)

    def for_file(self, uri: str) -> Settings:
        """These, with what the settings of the team say of a file."""
        name = path_of(uri)
        try:
            team = settings_of(name) if 0 < len(name) <= _LONGEST_PATH else TeamSettings()
        except (FileError, RecursionError) as error:
            return self._replace(style=self.style or PEOPLE, fault=str(error))
        selection = Selection(tuple(team.table.get("select", ())), (REJECTED,), team.steps(name))
        style, width = self.style or team.table.get("style", PEOPLE), team.table.get("width", WIDTH)
        return Settings(style, self.lints, width, selection, bool(team.file) and team.is_left_out(name))


def path_of(uri: str) -> str:
    """The file of a URI on this machine; of any other nothing."""
    try:
        parts = urlsplit(uri)
    except ValueError:
        return ""
    return unquote(parts.path) if parts.scheme == "file" and parts.netloc in ("", "localhost") else ""
