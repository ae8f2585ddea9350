"""The manager over a program that this process has started."""

from __future__ import annotations

import logging
import os
import threading
import time
import weakref
from collections.abc import Sequence

from .door import WHOLE_RUN, Asking, Door, has_room, is_roomy, waits_for_renewal
from .errors import Failed, Full, NotTaken, Refused, TimedOut, Undone
from .opening import ReportTo, Starter
from .pipe import Pipe
from .intake import Call
from .run import Run
from .sessions import MOST_LINES, kept
from .transactions import Access, Manager, Transaction
from .tree import COMMITTED, LIVE, MOST_KEYS, MOST_TRANSACTIONS, UNDONE, Node, keys_of
from .turns import Turns
from .words import Labels, value_of, word

_LOG = logging.getLogger("bogrunsi")
_LABELS = Labels()
# How often a call that waits looks whether the program lives, and whether an interrupted call has left something to be read.
_LOOK_SECONDS = 0.2
# How long a renewal tries to open its database again, and how long a call that holds nothing waits for a session.
_RENEWAL_SECONDS = 30.0
_SESSION_SECONDS = 10.0


class Jobs(Manager):
    """One program over one database, and one run of it after another. `open` makes it.

    Any thread may use it, and any transaction of it. A process that is forked from this one may not.
    """

    def __init__(
        self, program: Sequence[str], path: str | None, timeout: float | None, report: ReportTo | None, wait: float
    ) -> None:
        super().__init__()
        self.timeout = timeout
        # Held from a request to the reply, so that one request is under way at a time.
        self._lock = threading.Lock()
        self._turns = Turns()
        self._starter = Starter(program, path, report)
        self._door = Door()
        self._report_fault: OSError | None = None
        self._closed = False
        self._forked = False
        self._use(*self._starter.start(wait))
        self._opening = dict(self._run.tree.opening)
        _managers.add(self)

    # ---- what there is to see

    @property
    def opening(self) -> dict[str, int]:
        return dict(self._opening)

    @property
    def table(self) -> dict[str, int]:
        run = self._run
        rows = run.tree.final if run.whole else run.tree.table
        return dict(sorted(rows.copy().items()))

    @property
    def report(self) -> str:
        return self._run.text

    @property
    def runs(self) -> int:
        """How many runs of the program there were, the present one with them."""
        return self._starter.runs

    @property
    def remaining(self) -> dict[str, int]:
        """How many calls, transactions and new keys the present run has left. Over a database it is renewed in time."""
        run = self._run
        return {
            "calls": max(0, run.sessions.left() - kept(len(run.tree.live))),
            "transactions": MOST_TRANSACTIONS - len(run.tree.names),
            "keys": MOST_KEYS - len(run.tree.known),
        }

    def keys(self, group: str) -> list[str]:
        return keys_of(self.table, group)

    def transaction(self, name: str) -> Transaction:
        with self._lock:
            node = self._ready(None).tree.live.get(name)
        if node is None:
            raise Refused("unknown")
        return Transaction(self, node, self.timeout, None, own=False)

    def __repr__(self) -> str:
        run = self._run
        state = "serves" if run.fault is None else str(run.fault())
        return f"<bogrunsi.Jobs over {self._starter.path or 'memory'}: {state}, {len(run.tree.live)} transactions live>"

    # ---- the end

    def close(self) -> None:
        """Ends the input and waits for the rest of the report. The program undoes what is still live.

        It raises `Failed` where the report is not whole. In a forked child it does nothing.
        """
        if self._forked:
            return
        with self._lock:
            self._closed = True
            run = self._run
            run.close()
            self._finalizer.detach()
            self._door.wake()
        if not run.whole:
            raise self._fault()
        if self._report_fault or run.report_fault:
            raise Failed(f"the report could not be written: {self._report_fault or run.report_fault}")

    def _fault(self) -> Failed:
        assert self._run.fault is not None
        return self._run.fault()

    def _use(self, pipe: Pipe, run: Run) -> None:
        """Has calls go to a run, whose program ends once nobody holds this manager."""
        run.ended = self._door.wake
        run.lock = self._lock
        run.turns = self._turns
        self._run = run
        self._finalizer = weakref.finalize(self, pipe.drop)

    def _renew(self) -> Run:
        """Ends the run, in which nothing is live, and begins another over the same database."""
        old = self._run
        old.close()
        if not old.whole:
            raise self._fault()
        self._report_fault = self._report_fault or old.report_fault
        self._finalizer.detach()
        self._use(*self._starter.start(_RENEWAL_SECONDS))
        return self._run

    def _after_fork(self) -> None:
        """In a forked child: closes its copies of the streams, and refuses all calls."""
        self._forked = True
        # Another thread may have held it, which is not here.
        self._lock = threading.Lock()
        self._turns = Turns()
        self._finalizer.detach()
        self._run.forked(self._lock, self._turns)

    # ---- begins and ends

    def _begin(
        self,
        parent: Node | None,
        label: str | None,
        timeout: float | None,
        alone: bool,
        calls: int | None,
        who: object = None,
    ) -> Transaction:
        if label is not None and "/" in word(label):
            raise ValueError(f"{label!r} is more than one label")
        if timeout is not None and not timeout >= 0.0:
            raise ValueError(f"{timeout} is no number of seconds to wait")
        if calls is not None and calls > WHOLE_RUN:
            raise Full(f"{calls} calls do not fit a run, which has {WHOLE_RUN}")
        asking = Asking(parent, threading.get_ident() if who is None else who, alone, calls)
        try:
            while True:
                with self._turns, self._lock:
                    run = self._ready(parent)
                    if not self._is_held(asking, run):
                        transaction, call = self._send_begin(asking, label, timeout)
                        break
                    gate = self._door.gate()
                gate.acquire(timeout=_LOOK_SECONDS)
            self._result(call)
            return transaction
        finally:
            self._door.leave(asking)

    def _is_held(self, asking: Asking, run: Run) -> bool:
        """Whether a begin has to wait. A run that is at its end is renewed, if nothing is live in it."""
        if self._door.holds_back(asking, run):
            return True
        if asking.parent is None and self._starter.path is not None and not is_roomy(run, asking.calls):
            if not run.tree.live:
                run = self._renew()
            elif waits_for_renewal(asking, run):
                return True
        return not has_room(run)

    def _send_begin(self, asking: Asking, label: str | None, timeout: float | None) -> tuple[Transaction, Call]:
        run, parent = self._run, asking.parent
        above = "" if parent is None else f"{parent.name}/"
        name = f"{above}{_LABELS.behind('job' if parent is None else 'part') if label is None else label}"
        node = Node(name, parent, run, asking.who)
        # It is there before the request: where this call is cut, it is undone once it was dropped.
        transaction = Transaction(self, node, timeout, None)
        call = Call(node, "begin", "", None, f"begin {name}")
        run.exchange(call)
        asking.node = node
        return transaction, call

    def _finish(self, node: Node, verb: str) -> None:
        call = Call(node, verb, "", None, f"{verb} {node.name}")
        with self._turns, self._lock:
            run = self._ready(node)
            run.exchange(call)
        self._result(call)

    # ---- accesses

    def _accesses(self, node: Node) -> Access:
        assert node.run is not None
        return node.run.access

    def _go_on(self, call: Call, timeout: float | None) -> int | None:
        assert call.node is not None
        return self._late(call if call.sent else self._sent(call.node, call, timeout), timeout)

    def _sent(self, node: Node, call: Call, timeout: float | None) -> Call:
        """A call, once it was sent. It waits for a session where there is none for it."""
        since = 0.0
        while True:
            with self._lock:
                run = self._ready(node)
                if self._has_session(run, node, since):
                    node.used = True
                    run.exchange(call)
                    return call
                gate = self._door.gate()
            since = self._wait_for_session(gate, node, since, timeout)

    def _ready(self, node: Node | None) -> Run:
        """The run, with nothing under way. A transaction has to be one of this run."""
        run = self._run
        run.settle()
        if run.fault is not None:
            raise run.fault()
        while self._lost:
            held = self._lost[0]
            if run.tree.live.get(held.node.name) is held.node:
                run.exchange(Call(held.node, "abort", "", None, f"abort {held.node.name}"))
            self._held.discard(held)
            if self._lost and self._lost[0] is held:
                self._lost.popleft()
        if node is not None and node.run is not run:
            raise Undone(node.name) if node.state == UNDONE else Refused("done")
        if run.fault is not None:
            raise run.fault()
        return run

    def _has_session(self, run: Run, node: Node, since: float) -> bool:
        """Whether an access can be sent, where lines are short. A transaction that may hold locks does not wait for a session:
        of those whose calls wait, the one that began last is undone for it."""
        if run.spare > 0:
            return True
        if run.sessions.left() - MOST_LINES < kept(len(run.tree.live)):
            raise Full(f"the run has no lines left for {node.name} but those that end transactions: commit it or undo it")
        if not run.waiting or not (node.holds() or (since and time.monotonic() - since > _SESSION_SECONDS)):
            return False
        waiting = {call.node.name for call in run.waiting.values() if call.node is not None}
        victim = [live for live in run.tree.live.values() if live.name in waiting][-1:]
        if not victim:
            return False
        _LOG.info("%s is undone, since all sessions wait and %s needs one", victim[0].name, node.name)
        run.exchange(Call(victim[0], "abort", "", None, f"abort {victim[0].name}"))
        return run.spare > 0

    def _wait_for_session(self, gate: threading.Lock, node: Node, since: float, timeout: float | None) -> float:
        """Waits for a session, and says since when. A call that has a time-out is given up at its end."""
        now = time.monotonic()
        since = since or now
        if timeout is not None and now - since >= timeout:
            self._finish(node, "abort")
            raise TimedOut(node.name)
        left = _LOOK_SECONDS if timeout is None else min(_LOOK_SECONDS, timeout - (now - since))
        gate.acquire(timeout=left)
        return since

    def _result(self, call: Call) -> int | None:
        """What a call returns that cannot wait."""
        if call.reply is not None:
            return value_of(call.reply)
        if call.kind is not None:
            raise NotTaken(call.kind)
        raise self._fault()

    def _late(self, call: Call, timeout: float | None) -> int | None:
        """What a call returns that was not answered at once. Behind its time-out its transaction is undone."""
        if call.gate is None:
            return self._result(call)
        assert call.node is not None and call.node.run is not None
        run = call.node.run
        until = None if timeout is None else time.monotonic() + timeout
        late = False
        while call.reply is None and run.fault is None:
            left = _LOOK_SECONDS if until is None or late else min(_LOOK_SECONDS, max(0.0, until - time.monotonic()))
            if call.gate.acquire(timeout=left):
                continue
            with self._lock:
                run.settle()
                if run.fault is None and run.has_more():
                    run.listen()
                if run.fault is None and call.reply is None:
                    self._ready(None)
                    if until is not None and time.monotonic() >= until:
                        late = True
                        run.exchange(Call(call.node, "abort", "", None, f"abort {call.node.name}"))
        if late:
            if call.reply is not None and call.reply.startswith("orphan ") and call.reply[7:] != call.node.name:
                raise Undone(call.reply[7:])
            raise TimedOut(call.node.name)
        return self._result(call)


_managers: weakref.WeakSet[Jobs] = weakref.WeakSet()


def _after_fork_in_child() -> None:
    for manager in list(_managers):
        manager._after_fork()


os.register_at_fork(after_in_child=_after_fork_in_child)
