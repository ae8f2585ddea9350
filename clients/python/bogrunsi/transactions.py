"""Transactions as a caller has them, and what their managers have in common."""

from __future__ import annotations

import weakref
from abc import ABC, abstractmethod
from collections import deque
from collections.abc import Callable, Iterator
from types import TracebackType
from typing import Self, cast

from .errors import Error, Failed
from .intake import Call
from .shown import ShownTree, tree_of
from .tree import UNDONE, Node
from .tries import MOST_TRIES, Again, Attempt, Pauses, attempts
from .words import number


#: A call of an access: it gives the value, or the call where it is not over. `Run.access` says what it is given.
Access = Callable[[Node, str, str, int | None, str, str], int | None | Call]


class Manager(ABC):
    """What runs transactions: a program that this process started, or a server at a socket.

    As a context manager it is closed at the end of its block.
    """

    #: How many seconds the calls of transactions wait for a lock, unless `begin` says so. With none they wait as long as it takes.
    timeout: float | None

    def __init__(self) -> None:
        # What the caller holds, and what nobody holds any more: that is to be undone, if it has not ended.
        self._held: set[Held] = set()
        self._lost: deque[Held] = deque()

    def begin(
        self, name: str | None = None, *, timeout: float | None = None, alone: bool = False, calls: int | None = None
    ) -> Transaction:
        """Begins a top-level transaction, whose name is one label. With none it is given one.

        With `alone` it begins once no other transaction is live, and none begins beside it until it has ended. `calls` says how many
        calls it is going to take: a run that has fewer left is renewed first, and more than a run has are refused at once.
        """
        return self._begin(None, name, self.timeout if timeout is None else timeout, alone, calls)

    def tries(
        self,
        name: str | None = None,
        times: int = MOST_TRIES,
        again_after: Again = (),
        *,
        timeout: float | None = None,
        pauses: Pauses | None = None,
    ) -> Iterator[Attempt]:
        """Top-level transactions, one after another, until one commits. `Transaction.tries` says when the next one begins."""
        return attempts(self.begin, name, times, again_after, self.timeout if timeout is None else timeout, pauses or Pauses())

    @property
    @abstractmethod
    def opening(self) -> dict[str, int]:
        """The rows of the table as the manager found them."""

    @property
    @abstractmethod
    def table(self) -> dict[str, int]:
        """The rows that were committed, as far as this client has seen it. Once it was closed they are those of the report's end."""

    @property
    @abstractmethod
    def report(self) -> str:
        """The report of the present run, as far as it has come. `tx check` judges it once the run has ended."""

    def tree(self) -> ShownTree:
        """What became of each transaction of the present run, as far as it was seen: what `tx show` prints of `report`."""
        return tree_of(self.report)

    @abstractmethod
    def keys(self, group: str) -> list[str]:
        """The keys of a group that have a value in `table`."""

    @property
    @abstractmethod
    def remaining(self) -> dict[str, int]:
        """How many calls, transactions and new keys the present run has left."""

    @abstractmethod
    def transaction(self, name: str) -> Transaction:
        """A live transaction that was begun elsewhere, by its whole name: in another thread, or by another client of the server.
        Who has begun it keeps it: it is not undone where this is dropped."""

    @abstractmethod
    def close(self) -> None:
        """Ends it. What is still live is undone."""

    def __enter__(self) -> Self:
        return self

    def __exit__(self, kind: type[BaseException] | None, raised: BaseException | None, trace: TracebackType | None) -> None:
        try:
            self.close()
        except Failed:
            if raised is None:
                raise

    @abstractmethod
    def _begin(
        self, parent: Node | None, label: str | None, timeout: float | None, alone: bool, calls: int | None
    ) -> Transaction: ...

    @abstractmethod
    def _accesses(self, node: Node) -> Access:
        """What the accesses of a transaction go by."""

    @abstractmethod
    def _go_on(self, call: Call, timeout: float | None) -> int | None:
        """What an access returns that was not over at once."""

    @abstractmethod
    def _finish(self, node: Node, verb: str) -> None: ...


class Held(weakref.ref["Transaction"]):
    """Tells of a transaction that nobody holds any more. No function of Python is called for that, in which the exception of a signal
    handler would be lost."""

    #: What is known of it.
    node: Node


class Transaction:
    """A transaction that has begun. `begin` and `tries` of a manager or of another transaction make it.

    As a context manager it commits at the end of its block, and is undone where an exception leaves the block. One that nobody
    holds any more is undone.
    """

    def __init__(self, manager: Manager, node: Node, timeout: float | None, parent: Transaction | None, own: bool = True) -> None:
        self._manager = manager
        self._node = node
        self._access = manager._accesses(node)
        # It lives as long as a part of it is held.
        self._parent = parent
        if own:
            # What is called is the list's own, and gets this very object.
            held = Held(self, cast(Callable[["weakref.ref[Transaction]"], object], manager._lost.append))
            held.node = node
            manager._held.add(held)
        #: The whole name, from the top-level transaction on.
        self.name = node.name
        #: How many seconds a call waits for a lock. With none it waits as long as it takes.
        self.timeout = timeout
        #: Whether it was committed or undone by a call of its own.
        self.ended = False

    @property
    def state(self) -> str:
        """Its state as far as it was seen: `live`, `committed` or `undone`."""
        return self._node.state

    def __repr__(self) -> str:
        return f"<bogrunsi.Transaction {self.name} {self._node.state}>"

    def begin(
        self, label: str | None = None, *, timeout: float | None = None, alone: bool = False, calls: int | None = None
    ) -> Transaction:
        """Begins a part, which is named by one label below this transaction. With none it is given one.

        With `alone` it begins once nothing is live but what is above it, and none begins beside it until it has ended.
        """
        part = self._manager._begin(self._node, label, self.timeout if timeout is None else timeout, alone, calls)
        part._parent = self
        return part

    def tries(
        self,
        label: str | None = None,
        times: int = MOST_TRIES,
        again_after: Again = (),
        *,
        timeout: float | None = None,
        pauses: Pauses | None = None,
    ) -> Iterator[Attempt]:
        """Parts of this transaction, one after another, until one commits. The first has this label, and each other a new one.

        The next one is begun where the block of the last was left by an `Undone` of that part itself, or by an exception
        of a type that is named. Any other exception goes on, and so does that of the last part. Before each there is a pause.
        """
        return attempts(self.begin, label, times, again_after, self.timeout if timeout is None else timeout, pauses or Pauses())

    def get(self, key: str) -> int | None:
        """The value of a key, as this transaction sees it, or none where it has no value."""
        value = self._access(self._node, "get", key, None, f" get {self._node.name} {key}", " -> value ")
        return self._manager._go_on(value, self.timeout) if isinstance(value, Call) else value

    def set(self, key: str, value: int) -> None:
        """Gives a key a value."""
        value = number(value)
        done = self._access(self._node, "set", key, value, f" set {self._node.name} {key} {value}", " -> ok\n")
        if isinstance(done, Call):
            self._manager._go_on(done, self.timeout)

    def add(self, key: str, value: int) -> int:
        """Adds to the value of a key, which is 0 where it has none, and returns the sum."""
        value = number(value)
        text = f" add {self._node.name} {key} {value}"
        return self._number(self._access(self._node, "add", key, value, text, " -> new "))

    def delete(self, key: str) -> None:
        """Takes a key's value away."""
        done = self._access(self._node, "del", key, None, f" del {self._node.name} {key}", " -> ok\n")
        if isinstance(done, Call):
            self._manager._go_on(done, self.timeout)

    def sum(self, group: str) -> int:
        """The sum of the values of all keys that begin with the group's bytes and a dot. Until this transaction and those
        that it commits into have ended, no other may write such a key."""
        text = f" sum {self._node.name} {group}"
        return self._number(self._access(self._node, "sum", group, None, text, " -> value "))

    def _number(self, done: int | None | Call) -> int:
        value = self._manager._go_on(done, self.timeout) if isinstance(done, Call) else done
        if value is None:
            raise Failed("a reply that is to have a number has none")
        return value

    def commit(self) -> None:
        """Commits into the parent; a top-level transaction commits into the database. Its parts have to have ended."""
        self._manager._finish(self._node, "commit")
        self.ended = True

    def undo(self) -> None:
        """Undoes it and all below it. Nothing is left of what they did."""
        self._manager._finish(self._node, "abort")
        self.ended = True

    def __enter__(self) -> Self:
        return self

    def __exit__(self, kind: type[BaseException] | None, raised: BaseException | None, trace: TracebackType | None) -> None:
        if self.ended:
            return
        if raised is not None:
            self._undo_at_last()
            return
        try:
            self.commit()
        except BaseException:
            self._undo_at_last()
            raise

    def _undo_at_last(self) -> None:
        """Undoes it where an exception is under way, which says more than that it was undone before."""
        if self._node.state == UNDONE:
            return
        try:
            self.undo()
        except Error:
            pass
