"""Starting the program over a database that another one may hold."""

from __future__ import annotations

import logging
import os
import stat
import time
from collections.abc import Callable, Sequence

from .errors import Failed
from .pipe import Pipe
from .report import Report
from .run import Run

#: Where the report of a run goes: a path, which the first run has, and `PATH.2`, `PATH.3` and so on those behind it; or what gives
#: the path of the run with a number, or none.
ReportTo = str | Callable[[int], str | None]

_LOG = logging.getLogger("bogrunsi")
_REFUSED = "tx: cannot open database"
_PAUSE = 0.02
_HEADER = b"SQLite format 3\0"


class Starter:
    """Starts one run after another over the same database."""

    def __init__(self, program: Sequence[str], path: str | None, report: ReportTo | None) -> None:
        self._command = [*program, "live", *([] if path is None else ["--db", path])]
        self.path = path
        self._report = report
        #: How many runs were begun.
        self.runs = 0

    def start(self, wait: float) -> tuple[Pipe, Run]:
        """A run whose opening rows have come. A database that cannot be opened is tried again for so many seconds, unless it is
        plain that waiting is of no use."""
        until = time.monotonic() + wait
        while True:
            pipe = Pipe(self._command)
            run = Run(pipe, self._report_of(self.runs + 1))
            run.mark()
            if run.fault is None:
                self.runs += 1
                _LOG.info("run %d over %s has begun, with %d rows", self.runs, self.path or "memory", len(run.tree.opening))
                return pipe, run
            run.close()
            self._judge(run, until)
            time.sleep(_PAUSE)

    def _judge(self, run: Run, until: float) -> None:
        """Raises why the run did not begin, unless it is worth while to try again."""
        assert run.fault is not None
        fault = run.fault()
        if self.path is None or _REFUSED not in run.stray:
            raise fault
        cause = visible_cause(self.path)
        if cause is not None:
            raise Failed(f"{fault}: {cause}")
        if time.monotonic() >= until:
            raise Failed(
                f"{fault}: another program may hold {self.path}, or its tables are not as docs/FORMATS.md has them"
            )

    def _report_of(self, number: int) -> Report | None:
        """The file for the report of the run with that number."""
        if self._report is None:
            return None
        if isinstance(self._report, str):
            path: str | None = self._report if number == 1 else f"{self._report}.{number}"
        else:
            path = self._report(number)
        try:
            return None if path is None else Report(path)
        except OSError as fault:
            raise Failed(f"the report cannot be written: {fault}") from fault


def visible_cause(path: str) -> str | None:
    """Why no program can open the database, as far as its file shows it."""
    folder = os.path.dirname(path) or "."
    if not path or path == ":memory:":
        return "the path names no file"
    if not os.path.isdir(folder):
        return f"there is no folder {folder}"
    if not os.access(folder, os.W_OK | os.X_OK):
        return f"the folder {folder} may not be written, where the log of writes has to stand"
    if not os.path.lexists(path):
        return None
    try:
        told = os.stat(path)
    except OSError as fault:
        return str(fault)
    if not stat.S_ISREG(told.st_mode):
        return f"{path} is no file"
    if told.st_nlink > 1:
        return f"{path} has more than one name (hard links)"
    if not os.access(path, os.R_OK | os.W_OK):
        return f"{path} may not be read and written"
    if os.path.exists(f"{path}-journal"):
        return f"{path}-journal stands beside it: sqlite3 has to open the database once"
    return _cause_within(path)


def _cause_within(path: str) -> str | None:
    try:
        with open(path, "rb") as file:
            head = file.read(len(_HEADER))
    except OSError as fault:
        return str(fault)
    if head and head != _HEADER:
        return f"{path} is no SQLite database"
    return None
