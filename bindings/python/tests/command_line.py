"""Runs `promql-rules` within the process of a test."""

import contextlib
import io
from typing import NamedTuple
from unittest import mock

from promql.__main__ import main


class Ran(NamedTuple):
    status: int
    out: str
    err: str


def run(*arguments, stdin=b""):
    """Runs a command with these arguments and this standard input."""
    out, err = (io.TextIOWrapper(io.BytesIO(), "utf-8", newline="") for _ in range(2))
    given = mock.patch("sys.stdin", io.TextIOWrapper(io.BytesIO(stdin), "utf-8"))
    with contextlib.redirect_stdout(out), contextlib.redirect_stderr(err), given:
        try:
            status = main([str(argument) for argument in arguments])
        except SystemExit as ended:
            status = ended.code
    return Ran(status, *(read(stream) for stream in (out, err)))


def read(stream):
    stream.flush()
    return stream.buffer.getvalue().decode()
