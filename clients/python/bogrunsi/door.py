"""Who may begin a transaction now: the limits of a run, runs that renew themselves, and transactions that are alone."""

from __future__ import annotations

import threading
import time

from .errors import Full
from .run import Run
from .sessions import MOST_LINES, MOST_SESSIONS, kept
from .tree import ASKED, LIVE, MOST_KEYS, MOST_TRANSACTIONS, Node

#: How many calls a job can take in a whole run. One session is left out, since a call may wait in it.
WHOLE_RUN = (MOST_SESSIONS - 1) * MOST_LINES - 2 * kept(1)
# A run that has fewer lines, transactions or keys left is renewed before the next job begins.
_LINES = 16384
_TRANSACTIONS = 4096
_KEYS = 512
# A job may begin in a run that is to be renewed, where others have not ended for so many seconds, as long as this much is left.
_SOFT_SECONDS = 1.0
_LAST_LINES = 2048
_LAST_TRANSACTIONS = 512
# No begin is held back longer.
_HELD_SECONDS = 60.0
_ALONE_SECONDS = 10.0


class Asking:
    """A call that wants to begin a transaction."""

    def __init__(self, parent: Node | None, who: object, alone: bool, calls: int | None) -> None:
        self.parent = parent
        self.who = who
        self.alone = alone
        self.calls = calls
        self.since = time.monotonic()
        #: The transaction, once its request was sent.
        self.node: Node | None = None

    def held_for(self) -> float:
        """For how many seconds it has been held back."""
        return time.monotonic() - self.since

    def is_over(self) -> bool:
        """Whether one that is to be alone has ended, or was given up."""
        if self.node is None:
            return self.held_for() > _ALONE_SECONDS + 5.0
        return self.node.state not in (ASKED, LIVE)

    def keeps_out(self, other: Asking, run: Run) -> bool:
        """Whether the other one would begin beside this one, which is alone. Whoever has something live beside it may go on, since
        it may hold what this one waits for."""
        if other is self or other.who == self.who:
            return False
        if other.parent is not None and (self.parent is None or not self.parent.is_below(other.parent.name)):
            return False
        return not any(node.who == other.who for node in run.tree.beside(self.parent))


class Door:
    """What holds begins back. The caller holds the lock of the manager."""

    def __init__(self) -> None:
        #: The one that is to be alone.
        self._alone: Asking | None = None
        self._gates: list[threading.Lock] = []

    def gate(self) -> threading.Lock:
        """A lock that is opened when a transaction ends."""
        gate = threading.Lock()
        gate.acquire()
        self._gates.append(gate)
        return gate

    def wake(self) -> None:
        """Has all that are held back look again."""
        while self._gates:
            gate = self._gates.pop()
            if gate.locked():
                gate.release()

    def leave(self, asking: Asking) -> None:
        """The call is over. If it has begun nothing, it keeps nobody out."""
        if self._alone is asking and (asking.node is None or asking.node.state not in (ASKED, LIVE)):
            self._alone = None

    def holds_back(self, asking: Asking, run: Run) -> bool:
        """Whether it has to wait for others that are alone, or that it is to be alone of."""
        if self._alone is not None and self._alone.is_over():
            self._alone = None
        late = asking.held_for() > _ALONE_SECONDS
        if self._alone is not None and self._alone.keeps_out(asking, run):
            return not late
        if not asking.alone:
            return False
        if self._alone is None:
            self._alone = asking
        return not late and bool(run.tree.beside(asking.parent))


def is_roomy(run: Run, calls: int | None) -> bool:
    """Whether a job may begin in the run, and the run is not to be renewed first."""
    tree = run.tree
    if len(tree.names) > MOST_TRANSACTIONS - _TRANSACTIONS:
        return False
    if len(tree.known) > MOST_KEYS - _KEYS and len(tree.known) - len(tree.table) > _KEYS:
        return False
    wanted = (_LINES if calls is None else calls) + kept(len(tree.live) + 1)
    return run.sessions.others >= wanted or run.sessions.left() - MOST_LINES >= wanted


def waits_for_renewal(asking: Asking, run: Run) -> bool:
    """Whether a job has to wait until a run that is not roomy, and in which others are live, has ended."""
    if any(node.who == asking.who for node in run.tree.live.values()):
        # Its own caller has something live there, which would not end while it waits.
        if asking.calls is not None:
            raise Full(f"{asking.calls} calls do not fit what is left of the run, which ends once no job is open")
        return False
    held = asking.held_for()
    if held < _SOFT_SECONDS:
        return True
    left = run.sessions.left() - MOST_LINES - kept(len(run.tree.live) + 1)
    if asking.calls is None and left >= _LAST_LINES and len(run.tree.names) <= MOST_TRANSACTIONS - _LAST_TRANSACTIONS:
        return False
    if held < _HELD_SECONDS:
        return True
    names = ", ".join(node.name for node in run.tree.jobs())
    raise Full(f"the run is at its end and cannot be renewed, since jobs are open in it: {names}")


def has_room(run: Run) -> bool:
    """Whether a transaction can begin, with lines for its end. If not now, it waits for a session; if never, this is told."""
    if len(run.tree.names) >= MOST_TRANSACTIONS:
        raise Full(f"the run has begun {MOST_TRANSACTIONS} transactions: end this job and begin another")
    wanted = kept(len(run.tree.live) + 1)
    if run.sessions.others >= wanted:
        return True
    if run.sessions.left() - MOST_LINES < wanted:
        raise Full("the run has no lines left for another transaction: commit the job or undo it")
    return False
