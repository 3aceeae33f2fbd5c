"""The name of the command, and values of options, as the programs of dist/ take them."""

from __future__ import annotations

import argparse
import sys
from functools import partial
from typing import Any, Iterable, List, NamedTuple, NoReturn, Optional, Sequence, Tuple

from . import TARGETS, __version__
from .terminal import visible

PROGRAM = "promql-rules"
# More digits than any number below 2^64 has.
_MOST_DIGITS = 20
MOST = 2**64 - 1
# The status of wrong arguments.
_USAGE = 64
_MOST_SECONDS = 86_400
# How a query is laid out: for people, with its comments, as `promql format` does, or as `promql pretty` does; and how wide.
PEOPLE, PRETTY = STYLES = ("people", "pretty")
WIDTH = 100


class Parser(argparse.ArgumentParser):
    """Reads the arguments of the command, or of one of its subcommands, and ends it with a message where they are wrong."""

    def __init__(self, **settings: Any) -> None:
        super().__init__(**settings)
        self.set_defaults(wrong=self.error)
        self.add_argument("--version", action="version", version=f"{PROGRAM} {__version__}", help="print the version, and do no more")

    def parse_known_args(self, args: Optional[Sequence[str]] = None, namespace: Any = None) -> Tuple[Any, List[str]]:
        """The same, but that no argument may be left, so that the subcommand says what is wrong with its own."""
        found, rest = super().parse_known_args(args, namespace)
        if rest:
            word = rest[0].partition("=")[0]
            is_option = word.startswith("-") and word != "--"
            hint = _nearest(word, self._option_string_actions)
            self.error(f"no option is called {word}{hint}" if is_option else f"too many arguments: {rest[-1]!r}")
        return found, rest

    def error(self, message: str) -> NoReturn:
        self.print_usage(sys.stderr)
        self.exit(_USAGE, f"{self.prog}: {visible(message)}\n")

    def _check_value(self, action: argparse.Action, value: Any) -> None:
        if action.choices is not None and value not in action.choices:
            wrong = f"{value!r} is none of {', '.join(action.choices)}{_nearest(value, action.choices)}"
            raise argparse.ArgumentError(action, wrong)


def _nearest(word: str, known: Iterable[str]) -> str:
    """A hint at the word that is most likely meant, if one is near."""
    import difflib
    return "".join(f": did you mean {near}?" for near in difflib.get_close_matches(word, known, 1))


def whole_number(text: str, least: int = 0, most: int = MOST) -> int:
    """A number in decimal digits of ASCII, for argparse: no sign, no white space, no digits of other scripts, nothing between digits."""
    is_number = text.isascii() and text.isdecimal() and len(text) <= _MOST_DIGITS
    if not is_number or not least <= int(text) <= most:
        raise argparse.ArgumentTypeError(f"not a number from {least} to {most}: {text!r}")
    return int(text)


def add_target(parser: Any) -> None:
    """The option that names what reads the queries. `promql.set_target` is told of it before the command runs."""
    names = tuple(TARGETS)
    parser.add_argument("--target", choices=names, default=names[0], help=f"what reads the queries, with what it reads otherwise ({names[0]})")


# ---- a server


class ApiBounds(NamedTuple):
    """What is asked of a server at most: requests, the seconds of one and of all together, and the bytes of an answer."""

    max_requests: int = 2_000
    request_timeout: float = 10
    server_timeout: float = 120
    max_answer: int = 4_194_304


# The options that say who asks a server, and which certificates are right, in the words of the proxy (docs/guide/proxy.md).
ACCESS = {
    "credentials": ("FILE", "the file with NAME:PASSWORD for it, or with a token"),
    "user": ("NAME", "the user that it is asked as"),
    "password-file": ("FILE", "the file with the password of this user"),
    "bearer-file": ("FILE", "the file with a token, in place of a user"),
    "ca-file": ("FILE", "the file with the authorities for its certificate, in place of the system's"),
    "cert-file": ("FILE", "the file with the certificate for who asks it"),
    "key-file": ("FILE", "the file with the key of this certificate"),
}
PAIRS = (("user", "password-file"), ("cert-file", "key-file"))


def add_server_arguments(parser: Any, use: str) -> None:
    """The options that name a server, and what is asked of it."""
    seconds, most = partial(whole_number, least=1, most=_MOST_SECONDS), ApiBounds()
    parser.add_argument("--prometheus", metavar="URL", help=f"the Prometheus {use}")
    for name, (metavar, text) in ACCESS.items():
        parser.add_argument(f"--prometheus-{name}", metavar=metavar, help=text)
    parser.add_argument("--max-requests", type=whole_number, default=most[0], metavar="N", help=f"the most requests to it ({most[0]})")
    parser.add_argument("--request-timeout", type=seconds, default=most[1], metavar="S", help=f"the most seconds of a request ({most[1]})")
    parser.add_argument("--server-timeout", type=seconds, default=most[2], metavar="S", help=f"the same of all requests ({most[2]})")
    parser.add_argument("--max-answer", type=whole_number, default=most[3], metavar="N", help=f"the most bytes of an answer ({most[3]})")
