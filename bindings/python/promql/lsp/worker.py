"""A process that does what takes long in large rule files: the server answers meanwhile, and ends a job that is too late."""

from __future__ import annotations

import gc
import sys
from contextlib import suppress
from multiprocessing.connection import Connection

from .work import work

if __name__ == "__main__":
    gc.set_threshold(100_000)
    # (the server ends it, or is gone)
    with suppress(EOFError, OSError), Connection(int(sys.argv[1])) as pipe:
        while True:
            pipe.send(work(pipe.recv()))
