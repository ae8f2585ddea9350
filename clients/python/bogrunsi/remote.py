"""The manager over a server, for a process that shares it with others."""

from __future__ import annotations

import os
import socket
import threading
import weakref
from collections.abc import Callable
from typing import TypeVar

from .errors import Closed, Error, Failed, Forked, Undone
from .intake import Call
from .protocol import GREETING, NOTHING, read
from .transactions import Access, Manager, Transaction
from .tree import ASKED, COMMITTED, LIVE, UNDONE, Node, keys_of
from .words import Labels, word

_LABELS = Labels()
_Found = TypeVar("_Found")


class Gone(Failed):
    """A connection has ended, or gave what is no reply."""


class Link:
    """A connection to the server, which has one request under way at most."""

    def __init__(self, path: str) -> None:
        self._socket = socket.socket(socket.AF_UNIX, socket.SOCK_STREAM)
        self._bytes = b""
        try:
            self._socket.connect(path)
        except OSError as fault:
            self._socket.close()
            raise Gone(f"no server answers at {path}: {fault}") from fault
        greeting = self.line()
        if not greeting.startswith(f"{GREETING} "):
            self.close()
            raise Gone(f"what answers at {path} is no server of this kind: {greeting[:80]!r}")
        #: The word by which other connections join this one.
        self.token = greeting[len(GREETING) + 1 :]

    def ask(self, request: str) -> str:
        """The reply to a request."""
        try:
            self._socket.sendall(f"{request}\n".encode())
        except OSError as fault:
            raise Gone(f"the server has gone: {fault}") from fault
        return self.line()

    def line(self) -> str:
        """The next line."""
        while (end := self._bytes.find(b"\n")) < 0:
            self._receive()
        text, self._bytes = self._bytes[:end], self._bytes[end + 1 :]
        return text.decode("utf-8", "backslashreplace")

    def bytes(self, size: int) -> bytes:
        """So many bytes."""
        while len(self._bytes) < size:
            self._receive()
        found, self._bytes = self._bytes[:size], self._bytes[size:]
        return found

    def close(self) -> None:
        """Ends the connection."""
        self._socket.close()

    def _receive(self) -> None:
        try:
            more = self._socket.recv(65536)
        except OSError as fault:
            raise Gone(f"the server has gone: {fault}") from fault
        if not more:
            raise Gone("the server has gone: what had committed stands in its database")
        self._bytes += more


class Connected(Manager):
    """A server's manager, as one of its clients. `connect` makes it.

    A call that is cut off by an exception costs its connection, and another one is made. The first connection carries no calls: the
    server undoes what this client has begun as soon as it ends.
    """

    def __init__(self, path: str, timeout: float | None) -> None:
        super().__init__()
        self.timeout = timeout
        self._path = path
        self._fault: Callable[[], Failed] | None = None
        # Connections without a request under way.
        self._idle: list[Link] = []
        self._first = Link(path)
        self._opening = self._rows("opening")
        _managers.add(self)

    @property
    def opening(self) -> dict[str, int]:
        return dict(self._opening)

    @property
    def table(self) -> dict[str, int]:
        return self._rows("table")

    @property
    def report(self) -> str:
        return self._with_link(lambda link: link.bytes(_number(read(link.ask("report")))).decode())

    @property
    def remaining(self) -> dict[str, int]:
        """How many calls, transactions and new keys the present run of the server has left."""
        calls, transactions, keys = str(self._ask("remaining")).split(" ")
        return {"calls": int(calls), "transactions": int(transactions), "keys": int(keys)}

    def keys(self, group: str) -> list[str]:
        return keys_of(self.table, group)

    def transaction(self, name: str) -> Transaction:
        self._ask(f"find {word(name)}")
        node = self._node(name)
        node.state = LIVE
        return Transaction(self, node, self.timeout, None, own=False)

    def close(self) -> None:
        """Ends the connections. The server undoes what this client has begun and not ended. In a forked child it does nothing."""
        if self._fault is None:
            self._fault = Closed
        self._first.close()
        self._close_idle()

    def __repr__(self) -> str:
        return f"<bogrunsi.Connected to {self._path}: {'serves' if self._fault is None else self._fault()}>"

    # ---- requests

    def _with_link(self, work: Callable[[Link], _Found]) -> _Found:
        """Does something by a connection that has no request under way. Where that is cut off, the connection is given up."""
        if self._fault is not None:
            raise self._fault()
        try:
            link = self._idle.pop()
        except IndexError:
            link = Link(self._path)
            read(link.ask(f"join {self._first.token}"))
        whole = False
        try:
            self._undo_lost(link)
            found = work(link)
            whole = True
        except (Error, ValueError) as fault:
            # A reply that is an exception leaves the connection in order.
            whole = not isinstance(fault, Gone)
            raise
        finally:
            if whole and self._fault is None:
                self._idle.append(link)
            else:
                link.close()
        return found

    def _undo_lost(self, link: Link) -> None:
        """Undoes the transactions that nobody holds any more."""
        while self._lost:
            try:
                held = self._lost.popleft()
            except IndexError:
                return
            self._held.discard(held)
            if held.node.state in (ASKED, LIVE):
                link.ask(f"abort {held.node.name}")

    def _ask(self, request: str) -> str | int | None:
        return self._with_link(lambda link: read(link.ask(request)))

    def _rows(self, request: str) -> dict[str, int]:
        def take(link: Link) -> dict[str, int]:
            rows = (link.line().split("=") for _ in range(_number(read(link.ask(request)))))
            return {key: int(value) for key, value in rows}

        return self._with_link(take)

    def _close_idle(self) -> None:
        while self._idle:
            self._idle.pop().close()

    def _after_fork(self) -> None:
        """In a forked child: closes its copies of the connections, and refuses all calls."""
        self._fault = Forked
        self._first.close()
        self._close_idle()

    # ---- transactions

    def _node(self, name: str, parent: Node | None = None) -> Node:
        return Node(name, parent, None, None)

    def _begin(
        self, parent: Node | None, label_text: str | None, timeout: float | None, alone: bool, calls: int | None
    ) -> Transaction:
        text = _LABELS.behind("job" if parent is None else "part") if label_text is None else word(label_text)
        if "/" in text:
            raise ValueError(f"{text!r} is more than one label")
        node = self._node(text if parent is None else f"{parent.name}/{text}", parent)
        # It is there before the request: where this call is cut off, it is undone once it was dropped.
        transaction = Transaction(self, node, timeout, None)
        words = ["begin", NOTHING if parent is None else parent.name, text, f"who={threading.get_ident()}"]
        words += [] if timeout is None else [f"timeout={timeout:f}"]
        words += ["alone"] if alone else []
        words += [] if calls is None else [f"calls={calls}"]
        try:
            self._ask(" ".join(words))
        except (Error, ValueError):
            node.state = UNDONE
            raise
        node.state = LIVE
        return transaction

    def _finish(self, node: Node, verb: str) -> None:
        self._noting(node, f"{verb} {node.name}")
        node.state = COMMITTED if verb == "commit" else UNDONE

    def _accesses(self, node: Node) -> Access:
        return self._access

    def _access(self, node: Node, verb: str, key: str, value: int | None, text: str, usual: str) -> int | None | Call:
        word(key)
        found = self._noting(node, text[1:])
        return None if found is None else _number(found)

    def _noting(self, node: Node, request: str) -> str | int | None:
        """What a request is replied, with the state of its transaction noted."""
        try:
            return self._ask(request)
        except Undone as undone:
            if node.is_below(undone.name):
                node.state = UNDONE
            raise

    def _go_on(self, call: Call, timeout: float | None) -> int | None:
        raise AssertionError("a call of a server is over at once")


def _number(found: str | int | None) -> int:
    if not isinstance(found, int):
        raise Failed(f"the server's reply {found!r} is to have a number")
    return found


_managers: weakref.WeakSet[Connected] = weakref.WeakSet()


def _after_fork_in_child() -> None:
    for manager in list(_managers):
        manager._after_fork()


os.register_at_fork(after_in_child=_after_fork_in_child)
