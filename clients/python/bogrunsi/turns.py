"""How threads take turns at the pipe.

A lock that several threads want is slow to change hands: each release wakes a thread that finds it taken again. So a thread that finds
somebody at the pipe stands in line, and one that asks again at once keeps its turn for some milliseconds before it hands it on. This is
advice alone: whoever has stood for long enough goes to the lock, which is what keeps calls apart.
"""

from __future__ import annotations

import threading
import time
from collections import deque
from types import TracebackType

# How long a thread keeps its turn, and within how many seconds of its last call it has to ask again for that.
_TURN_SECONDS = 0.005
AT_ONCE = 0.0002
# How long a thread stands in line, and how much longer for each that stands there. The first in line looks more often whether the one whose
# turn it is asks no more.
_STAND_SECONDS = 0.01
_LOOK_SECONDS = 0.001
_MOST_KNOWN = 1000


class Turns:
    """A line of threads, each known by its number. As a context manager it is stood in before its block, and handed on behind it."""

    def __init__(self) -> None:
        #: Those that stand in line.
        self.line: deque[threading.Lock] = deque()
        #: What is asked for at the pipe, or about to be. Where that is no longer so, those that stand in line find out.
        self.busy: object = None
        #: Who keeps its turn, until when, and when it has asked last.
        self.holder = 0
        self.until = 0.0
        self.asked = 0.0
        # When each thread has last been at the pipe while others stood in line.
        self._known: dict[int, float] = {}

    def __enter__(self) -> None:
        if self.line or (self.busy is not None and self.busy is not self):
            self.stand(threading.get_ident())
        self.busy = self

    def __exit__(self, kind: type[BaseException] | None, raised: BaseException | None, trace: TracebackType | None) -> None:
        if self.busy is self:
            self.busy = None
        if self.line:
            self.hand_on(threading.get_ident())

    def stand(self, me: int) -> None:
        """Stands in line, until the turn is handed on or it was long enough."""
        if self.holder == me:
            return
        since = time.perf_counter()
        is_at_once = since - self._known.get(me, 0.0) < AT_ONCE
        gate = threading.Lock()
        gate.acquire()
        self.line.append(gate)
        while not gate.acquire(timeout=_LOOK_SECONDS if self.line and self.line[0] is gate else _STAND_SECONDS):
            now = time.perf_counter()
            is_first = bool(self.line) and self.line[0] is gate
            if is_first and now - self.asked > _LOOK_SECONDS or now - since > _STAND_SECONDS * (1 + len(self.line)):
                break
        try:
            self.line.remove(gate)
        except ValueError:
            pass
        if is_at_once:
            self._known[me] = time.perf_counter()

    def hand_on(self, me: int) -> None:
        """Hands the turn on, unless this thread has asked at once and its time is not over."""
        now = time.perf_counter()
        if self.holder == me and now < self.until and now - self.asked < AT_ONCE:
            self.asked = now
            return
        is_at_once = now - self._known.get(me, 0.0) < AT_ONCE
        if len(self._known) > _MOST_KNOWN:
            self._known.clear()
        self._known[me] = now
        if self.holder not in (0, me) and now < self.until and now - self.asked < _LOOK_SECONDS:
            # It came in between, and stands in line again.
            return
        if is_at_once and self.holder != me:
            self.holder = me
            self.until = now + _TURN_SECONDS
            self.asked = now
            return
        self.holder = 0
        try:
            self.line.popleft().release()
        except (IndexError, RuntimeError):
            pass
