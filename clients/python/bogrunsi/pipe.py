"""The program, and the two streams that lead to it.

An exception of a signal handler can cut a Python function between any two of its steps. What must not be lost is done here in one
step of the interpreter: bytes that were read are in the list `chunks`, and what was written is told by the list that the writer
gives, whatever comes behind. The short way of `run.py` reads by a step of a loop, behind which no signal is handled before the bytes are in
the list.
"""

from __future__ import annotations

import os
import select
import subprocess
from collections.abc import Sequence

from .errors import Failed

_READ = os.read
_WRITE = os.write
_SIZE = (65536,)
# How long a program that nobody waits for is given to end.
_DROPPED_SECONDS = 5.0


class Pipe:
    """One start of the program. Its output and its errors are one stream, so that each request has a line that comes back."""

    def __init__(self, command: Sequence[str]) -> None:
        try:
            # In a session of its own: Control-C at a terminal is for the caller, who ends the program in order.
            self._process = subprocess.Popen(
                command,
                stdin=subprocess.PIPE,
                stdout=subprocess.PIPE,
                stderr=subprocess.STDOUT,
                bufsize=0,
                start_new_session=True,
            )
        except (OSError, ValueError) as fault:
            raise Failed(f"{command[0]} cannot be started: {fault}") from fault
        assert self._process.stdin is not None and self._process.stdout is not None
        self._input = self._process.stdin
        self._output = self._process.stdout
        #: The numbers of the two streams.
        self.input = self._input.fileno()
        self.output = self._output.fileno()
        self._poll = select.poll()
        self._poll.register(self.output, select.POLLIN)
        #: All bytes that came, in their order.
        self.chunks: list[bytes] = []

    @property
    def pid(self) -> int:
        """The number of the process."""
        return self._process.pid

    def write(self, data: bytes, written: list[int]) -> None:
        """Writes at most 4,096 bytes, all of them or none. `written` has an item once they were.

        A program that has ended takes none, which is no fault: the end is told by what is read.
        """
        try:
            written.extend(map(_WRITE, (self.input,), (data,)))
        except BrokenPipeError:
            written.append(0)

    def read(self) -> bytes:
        """Waits for bytes, which are then the last of `chunks`. None came at the end, and none are waited for behind it."""
        if self.chunks and not self.chunks[-1]:
            return b""
        self.chunks.extend(map(_READ, (self.output,), _SIZE))
        return self.chunks[-1]

    def has_more(self) -> bool:
        """Whether bytes or the end have come."""
        return bool(self._poll.poll(0))

    def end_input(self) -> None:
        """Tells the program that no request follows."""
        try:
            self._input.close()
        except OSError:
            pass

    def status(self) -> int:
        """Waits for the program's end, once its output has ended, and gives its exit status."""
        self._output.close()
        return self._process.wait()

    def kill(self) -> None:
        """Ends a program whose answers make no sense. What it has stored stands."""
        self._process.kill()

    def drop(self) -> None:
        """Lets go of a program that nobody asks any more: it undoes what is live, and ends by itself."""
        for stream in (self._input, self._output):
            try:
                stream.close()
            except OSError:
                pass
        if self._process.returncode is None:
            try:
                self._process.wait(_DROPPED_SECONDS)
            except subprocess.TimeoutExpired:
                pass

    def forked(self) -> None:
        """Closes the streams in a forked child, which would else keep the program from seeing the end of its input."""
        for stream in (self._input, self._output):
            try:
                stream.close()
            except OSError:
                pass
        # The program is no child of this process, which has nothing to wait for.
        self._process.returncode = 0
