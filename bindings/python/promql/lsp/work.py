"""The jobs that take long in large rule files, and the process that does them (worker.py): one at a time, which is ended where it takes too long."""

from __future__ import annotations

import os
import subprocess
import sys
import threading
import time
from contextlib import suppress
from multiprocessing.connection import Connection, Pipe
from pathlib import Path
from typing import Any, Callable, Dict, NamedTuple, Optional

from ..files import FileError
from .findings import fix_edits, given_query
from .layout import LeftError, rule_file_edits
from .navigation import changes_in_folders
from .outline import groups_of
from .rules import file_of, problems_of
from .settings import Settings

READ, FORMAT, FIX, RENAME = "read", "format", "fix", "rename"


class Job(NamedTuple):
    """What is to be done with a text: that of a file with queries, or that of a query."""

    number: int
    kind: str
    text: str
    settings: Settings
    # The part that is laid out, the fixes that are made, or what is renamed.
    wanted: Any = None
    is_json: bool = False
    is_query: bool = False


class Done(NamedTuple):
    """What came of it: a result, or why there is none."""

    number: int
    result: Any
    failure: str = ""


def _read(job: Job) -> Any:
    rules, problems = problems_of(job.text, job.settings, job.is_json)
    # (what cannot be read is not read again for its groups)
    return rules, problems, groups_of(file_of(job.text, job.is_json)) if rules else []


def _fix(job: Job) -> Any:
    file = given_query(job.text) if job.is_query else file_of(job.text, job.is_json)
    return fix_edits(file, job.settings.selection, job.wanted)


_WORK: Dict[str, Callable[[Job], Any]] = {
    READ: _read, FORMAT: lambda job: rule_file_edits(job.text, job.wanted, job.settings, job.is_json), FIX: _fix,
    RENAME: lambda job: changes_in_folders(job.wanted),
}


def work(job: Job) -> Done:
    try:
        return Done(job.number, _WORK[job.kind](job))
    except (LeftError, FileError, ValueError) as error:
        return Done(job.number, None, str(error).partition("\n")[0] or "left as it is")
    except (MemoryError, RecursionError) as error:
        return Done(job.number, None, f"left as it is: {type(error).__name__}")


# A job ends after so many seconds, and one that is no longer wanted after fewer.
LONGEST = 20.0
LONGEST_OUTDATED = 1.0
_TOO_LONG = "left as it is: it takes too long"


class Helper:
    """Does jobs, and gives each back by a call that another thread makes."""

    def __init__(self, report: Callable[[Done], None]) -> None:
        self._report = report
        self._process: Optional["subprocess.Popen[bytes]"] = None
        self._pipe: Optional[Connection] = None
        self.job: Optional[Job] = None
        self._since = 0.0

    def submit(self, job: Job) -> None:
        """Begins a job. There may be no other."""
        self.job, self._since = job, time.monotonic()
        if self._process is None or self._process.poll() is not None:
            self._pipe, theirs = Pipe()
            with theirs:
                command = [sys.executable, "-m", f"{__package__}.worker", str(theirs.fileno())]
                self._process = subprocess.Popen(command, pass_fds=[theirs.fileno()], **_SILENT, env=_environment())
            threading.Thread(target=self._receive, args=(self._process, self._pipe), daemon=True).start()
        # (a thread writes, since the process may not read at once)
        threading.Thread(target=_send, args=(self._pipe, job), daemon=True).start()

    def done(self) -> None:
        self.job = None

    def end_late(self, is_wanted: bool) -> Optional[Done]:
        """Ends the job where it takes too long, and returns that it failed."""
        if not self.job or time.monotonic() - self._since < (LONGEST if is_wanted else LONGEST_OUTDATED):
            return None
        job = self.job
        self.close()
        return Done(job.number, None, _TOO_LONG)

    def close(self) -> None:
        process, self._process, self.job = self._process, None, None
        if process:
            process.kill()
            process.wait()

    def _receive(self, process: "subprocess.Popen[bytes]", pipe: Connection) -> None:
        while True:
            try:
                done = pipe.recv()
            except Exception:  # (what is left of an answer when the process is killed)
                pipe.close()
                job = self.job
                if job and self._process is process:
                    self._report(Done(job.number, None, "left as it is: the process that reads it ended"))
                return
            if self._process is process:
                self._report(done)


def _send(pipe: Connection, job: Job) -> None:
    # (where the process ended, `_receive` tells it)
    with suppress(OSError, ValueError):
        pipe.send(job)


# (what anything writes there would be read by the editor)
_SILENT: Dict[str, Any] = {"stdin": subprocess.DEVNULL, "stdout": subprocess.DEVNULL}


def _environment() -> Dict[str, str]:
    """That of this process, in which the package is found where it is found here."""
    here = str(Path(__file__).resolve().parents[2])
    return {**os.environ, "PYTHONPATH": os.pathsep.join(filter(None, [here, os.environ.get("PYTHONPATH", "")]))}
