"""promql-rules lsp: a language server for queries and rule files, over standard input and output (docs/guide/editor.md)."""

from __future__ import annotations

import argparse
import os
import sys
from typing import TYPE_CHECKING, Any, Optional

from .options import STYLES, add_target

if TYPE_CHECKING:
    from .lsp.prometheus import Prometheus


def add_parser(subparsers: Any) -> None:
    parser = subparsers.add_parser("lsp", help="serve an editor: diagnostics, layout, completion and more", description=__doc__)
    text = "complete the names of metrics and labels of a Prometheus on this machine, too"
    parser.add_argument("--prometheus", type=_prometheus, metavar="URL", help=text)
    parser.add_argument("--style", choices=STYLES, default="", help="how queries of files are laid out (people, or what settings say)")
    add_target(parser)
    parser.add_argument("--no-lint", action="store_true", help="show no findings of the linter")
    parser.add_argument("--stdio", action="store_true", help="the only way, which some editors ask for")
    parser.set_defaults(run=_run)


def _prometheus(url: str) -> Prometheus:
    from .lsp.prometheus import NotHere, Prometheus

    try:
        return Prometheus(url)
    except NotHere as error:
        raise argparse.ArgumentTypeError(str(error)) from error


def _run(arguments: argparse.Namespace) -> int:
    # (what no other command needs is not imported for them)
    from .lsp.server import Server
    from .lsp.settings import Settings

    prometheus: Optional[Prometheus] = arguments.prometheus
    source, target = sys.stdin.buffer, sys.stdout.buffer
    # (what anything else writes there would be read as a message)
    sys.stdout = sys.stderr
    server = Server(source, target, prometheus, Settings(arguments.style, not arguments.no_lint))
    status = server.run()
    if server.is_reading:
        # (Python does not end while a thread waits for standard input)
        os._exit(status)
    return status
