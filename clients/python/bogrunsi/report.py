"""The report of a run, written to a file as it grows."""

from __future__ import annotations

import logging
import os

_LOG = logging.getLogger("bogrunsi")


class Report:
    """A file that is given the lines of a report, each at its place: a line that is given twice is there once."""

    def __init__(self, path: str) -> None:
        self.path = path
        self._file = os.open(path, os.O_WRONLY | os.O_CREAT | os.O_TRUNC | os.O_CLOEXEC, 0o644)
        #: Why the file is not whole.
        self.fault: OSError | None = None

    def put(self, line: bytes, place: int) -> None:
        """Writes a line. A file that takes none is given up, and the run goes on."""
        if self.fault is None:
            try:
                os.pwrite(self._file, line, place)
            except OSError as fault:
                self.fault = fault
                _LOG.error("the report %s cannot be written: %s", self.path, fault)

    def close(self) -> None:
        """Closes the file."""
        if self._file >= 0:
            number, self._file = self._file, -1
            os.close(number)
