"""Transactions that are begun again where they were undone."""

from __future__ import annotations

import logging
import random
import time
from collections.abc import Callable, Iterator
from dataclasses import dataclass
from types import TracebackType
from typing import TYPE_CHECKING, Protocol

from .errors import Error, Full, Undone
from .words import Labels, label

if TYPE_CHECKING:
    from .transactions import Transaction

Again = type[BaseException] | tuple[type[BaseException], ...]
#: How many tries there are where no number is given.
MOST_TRIES = 10

_LOG = logging.getLogger("bogrunsi")
_LABELS = Labels()


@dataclass(frozen=True)
class Pauses:
    """How long the pause before a try is, and when tries come to an end.

    The pause before the second try is a random part of `first` seconds, and each other has twice the room of the one before, up
    to `longest`. From the try with the number `alone_from` on nobody begins beside it until it has ended.
    """

    first: float = 0.005
    longest: float = 1.0
    alone_from: int = 5

    def before(self, number: int) -> float:
        """The seconds of the pause before the try with that number, which is 2 or more."""
        return random.uniform(0.0, min(self.longest, self.first * 2.0 ** min(number - 2, 60)))


class Begin(Protocol):
    """The call that begins a transaction of a label."""

    def __call__(self, name: str | None, /, *, timeout: float | None, alone: bool) -> Transaction: ...


def attempts(
    begin: Begin, name: str | None, times: int, again_after: Again, timeout: float | None, pauses: Pauses
) -> Iterator[Attempt]:
    """Attempts until one commits. What cannot be right is refused before the first."""
    if times < 1:
        raise ValueError(f"{times} tries are none")
    base = _LABELS.behind("try") if name is None else label(name)

    def each() -> Iterator[Attempt]:
        for number in range(1, times + 1):
            if number > 1:
                time.sleep(pauses.before(number))
            text = base if number == 1 else _LABELS.behind(base)
            alone = number >= pauses.alone_from

            def begin_this(text: str = text, alone: bool = alone) -> Transaction:
                return begin(text, timeout=timeout, alone=alone)

            attempt = Attempt(begin_this, again_after, number == times)
            yield attempt
            if not attempt.failed:
                return
            _LOG.debug("try %d of %s was undone: %s", number, base, attempt.fault)

    return each()


class Attempt:
    """One of the transactions of `tries`. Its block begins it."""

    def __init__(self, begin: Callable[[], Transaction], again_after: Again, last: bool) -> None:
        self._begin = begin
        self._again_after = again_after
        self._last = last
        self._transaction: Transaction | None = None
        #: Whether it was undone, and the next one is wanted.
        self.failed = False
        #: Why.
        self.fault: BaseException | None = None

    def __enter__(self) -> Transaction:
        self._transaction = self._begin()
        return self._transaction

    def __exit__(self, kind: type[BaseException] | None, raised: BaseException | None, trace: TracebackType | None) -> bool:
        assert self._transaction is not None
        fault = raised
        try:
            self._transaction.__exit__(kind, raised, trace)
        except Error as unkept:
            fault = unkept
        if fault is None:
            return False
        self.fault = fault
        self.failed = self._is_again(fault)
        if not self.failed and fault is not raised:
            raise fault
        return self.failed

    def _is_again(self, fault: BaseException) -> bool:
        assert self._transaction is not None
        if self._last:
            return False
        name = self._transaction.name
        own = isinstance(fault, Undone) and fault.name == name
        # A job that did not fit what was left of a run may fit the next one.
        crowded = isinstance(fault, Full) and "/" not in name
        return own or crowded or isinstance(fault, self._again_after)
