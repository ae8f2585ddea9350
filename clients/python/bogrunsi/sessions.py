"""The sessions of a run and their lines, and how many are kept back.

One request is under way at a time, so one session serves all calls that are answered at once. A call that waits for a lock keeps its
session until it is answered. For each live transaction two lines are kept back, which its commit or undo can use: an access goes only
where the other sessions have as many, so that it may wait and leave them.
"""

from __future__ import annotations

from typing import TYPE_CHECKING

if TYPE_CHECKING:
    from .intake import Call

MOST_SESSIONS = 64
MOST_LINES = 1024
#: Lines that are kept back beside those of live transactions.
SLACK = 4


class Session:
    """A session of the program: a label, and how many of its lines were answered."""

    __slots__ = ("label", "taken", "call")

    def __init__(self, label: str) -> None:
        self.label = label
        self.taken = 0
        #: The call that has its next line, until that is answered.
        self.call: Call | None = None


class Sessions:
    """All sessions of a run."""

    def __init__(self) -> None:
        self._all = {f"s{number}": Session(f"s{number}") for number in range(1, MOST_SESSIONS + 1)}
        #: The session of the next request, unless it is full or waits.
        self.current = self._all["s1"]
        #: The lines that are left in the other sessions that have no line under way.
        self.others = 0
        self.turn()

    def find(self, label: str) -> Session | None:
        """The session of a label."""
        return self._all.get(label)

    def turn(self) -> Session:
        """Makes a session that has lines left and none under way the current one: a session that was begun before a new one.

        There is always one, since lines are kept back.
        """
        free = [session for session in self._all.values() if session.call is None and session.taken < MOST_LINES]
        if free:
            if self.current not in free:
                self.current = free[0]
            self.others = sum(MOST_LINES - session.taken for session in free if session is not self.current)
        else:
            self.others = 0
        return self.current

    def left(self) -> int:
        """The lines that are left in all sessions, those of sessions that wait with them."""
        return sum(MOST_LINES - session.taken for session in self._all.values())


def kept(live: int) -> int:
    """How many lines are kept back where so many transactions are live."""
    return 2 * live + SLACK
