"""promql-rules COMMAND ..: what the package does from a command line. It is `python -m promql`, too."""

from __future__ import annotations

import errno
import gc
import os
import signal
import sys
from importlib import import_module
from typing import Any, Iterable, List, Optional, TextIO

from . import set_target
from .documents import Status
from .options import PROGRAM, Parser

COMMANDS = ("check", "format", "lint", "metrics", "lsp", "serve", "completion")
# After how many new objects cycles are looked for.
_NEW_OBJECTS = 100_000


def main(arguments: Optional[List[str]] = None) -> int:
    parser = Parser(prog=PROGRAM, description="PromQL from a command line.")
    subparsers = parser.add_subparsers(metavar="COMMAND")
    for command in _meant_by(sys.argv[1:] if arguments is None else arguments):
        command.add_parser(subparsers)
    chosen = parser.parse_args(arguments)
    if "run" not in chosen:
        parser.error("no COMMAND is named")
    if "target" in chosen:
        # (processes that a command forks have it, too)
        set_target(chosen.target)
    status: int = chosen.run(chosen)
    return status


def _meant_by(words: List[str]) -> Iterable[Any]:
    """The module of the command that is named first, since it takes long to import all; and all where none is, or where it tells of all."""
    named = [name for name in words[:1] if name in COMMANDS and name != "completion"]
    return (import_module(".page" if name == "serve" else f".{name}_command", __package__) for name in named or COMMANDS)


def program() -> int:
    """The same as a program: it ends by the signal where nobody reads its output, or somebody ends it, and says so where its output
    cannot be written."""
    if sys.argv[1:2] in (["serve"], ["lsp"]):
        return main()
    # (a file has many objects and hardly a cycle of them, so looking for cycles seldom takes a fifth less time)
    gc.set_threshold(_NEW_OBJECTS)
    signal.signal(signal.SIGPIPE, signal.SIG_DFL)
    if signal.getsignal(signal.SIGINT) is signal.default_int_handler:
        signal.signal(signal.SIGINT, signal.SIG_DFL)
    # (a stream that was closed is None, and `print` takes standard output for that)
    if sys.stderr is None:
        sys.stderr = open(os.devnull, "w", encoding="utf-8")
    try:
        if sys.stdout is None:
            raise OSError(errno.EBADF, os.strerror(errno.EBADF))
        status = main()
        sys.stdout.flush()
        return status
    except OSError as error:
        _leave(sys.stdout)
        try:
            print(f"standard output: {error.strerror}", file=sys.stderr, flush=True)
        except OSError:
            _leave(sys.stderr)
        return Status.NOT_WRITTEN


def _leave(stream: Optional[TextIO]) -> None:
    """Writes no more to a stream. (What could not be written would be tried again at the end.)"""
    if stream is not None:
        os.dup2(os.open(os.devnull, os.O_WRONLY), stream.fileno())


if __name__ == "__main__":
    sys.exit(program())
