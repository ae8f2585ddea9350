"""A server: one manager, which several processes use over a socket."""

from __future__ import annotations

import errno
import logging
import os
import secrets
import select
import socket
import stat
import struct
import threading
import time
from dataclasses import dataclass, field

from .errors import Closed, Error, Failed, Refused
from .jobs import Jobs
from .protocol import GREETING, MOST_BYTES, NOTHING, options, spelled
from .transactions import Transaction

_LOG = logging.getLogger("bogrunsi")
#: How many connections there are at one time.
MOST_CONNECTIONS = 512
# A client that takes nothing of its replies for so many seconds is left.
_SEND_SECONDS = 30


@dataclass
class Owner:
    """A client: a connection, and those that joined it."""

    token: str
    #: What it has begun, by name, as long as the top-level transaction may be live.
    begun: dict[str, Transaction] = field(default_factory=dict)
    connections: set[socket.socket] = field(default_factory=set)
    #: Whether its first connection has ended, and what it begins is undone.
    gone: bool = False


class Server:
    """Serves a manager at a socket, which belongs to its user alone."""

    def __init__(self, jobs: Jobs, path: str) -> None:
        self._jobs = jobs
        self._path = path
        self._lock = threading.Lock()
        self._owners: dict[str, Owner] = {}
        self._transactions: dict[str, Transaction] = {}
        # Whose end is looked for: the socket of each first connection, by its number.
        self._first: dict[int, tuple[socket.socket, Owner]] = {}
        self._connections = 0
        self._ending = False
        self._closed = False
        #: Whether the manager has failed.
        self.failed = threading.Event()
        self._ends = select.epoll()
        self._listener = listen_at(path)
        for work in (self._accept, self._look_for_ends):
            threading.Thread(target=work, name=f"bogrunsi {work.__name__}", daemon=True).start()

    def stop(self, seconds: float) -> None:
        """Ends in order: no job begins any more, those at hand get so many seconds, and then are undone."""
        self._ending = True
        until = time.monotonic() + seconds
        while time.monotonic() < until and not self.failed.is_set() and any(
            "/" not in name and found.state == "live" for name, found in list(self._transactions.items())
        ):
            time.sleep(0.02)
        self._closed = True
        _shut(self._listener)
        self._listener.close()
        os.unlink(self._path)
        try:
            self._jobs.close()
        finally:
            with self._lock:
                sockets = [found for owner in self._owners.values() for found in owner.connections]
            for found in sockets:
                _shut(found)

    # ---- connections

    def _accept(self) -> None:
        while not self._closed:
            try:
                found, _ = self._listener.accept()
            except OSError as fault:
                if not self._closed:
                    _LOG.error("no connection can be taken: %s", fault)
                    time.sleep(0.1)
                continue
            found.setsockopt(socket.SOL_SOCKET, socket.SO_SNDTIMEO, struct.pack("ll", _SEND_SECONDS, 0))
            if self._connections >= MOST_CONNECTIONS:
                _say(found, "failed there are too many connections")
                found.close()
                continue
            self._connections += 1
            threading.Thread(target=self._serve, args=(found,), name="bogrunsi connection", daemon=True).start()

    def _serve(self, found: socket.socket) -> None:
        """Answers the requests of a connection, one after another, until it ends."""
        owner = Owner(secrets.token_hex(16))
        with self._lock:
            owner.connections.add(found)
            self._owners[owner.token] = owner
            self._first[found.fileno()] = (found, owner)
        # An end of both directions is told even where nothing else is asked for.
        self._ends.register(found.fileno(), 0)
        try:
            said = _say(found, f"{GREETING} {owner.token}")
            lines = Lines(found)
            while said and (line := lines.next()) is not None:
                if line.startswith("join "):
                    owner, reply = self._join(found, owner, line[5:])
                else:
                    reply = self._reply(owner, line)
                said = _say(found, reply)
            if not said:
                self._undo_last(owner)
        finally:
            self._leave(found, owner)

    def _join(self, found: socket.socket, owner: Owner, token: str) -> tuple[Owner, str]:
        """Has a connection belong to the client whose first connection has this token."""
        with self._lock:
            first = self._owners.get(token)
            if first is None or first.gone or owner.begun:
                return owner, spelled(Refused("unknown"))
            if first is not owner:
                self._forget(found, owner)
                first.connections.add(found)
        return first, "ok"

    def _forget(self, found: socket.socket, owner: Owner) -> None:
        """No longer looks for the end of a first connection."""
        self._owners.pop(owner.token, None)
        self._first.pop(found.fileno(), None)
        try:
            self._ends.unregister(found.fileno())
        except (OSError, ValueError):
            pass

    def _leave(self, found: socket.socket, owner: Owner) -> None:
        """A connection has ended."""
        with self._lock:
            first = self._first.get(found.fileno(), (None, None))[0] is found
        if first:
            self._end(found, owner)
        with self._lock:
            owner.connections.discard(found)
            self._connections -= 1
        found.close()

    def _look_for_ends(self) -> None:
        """Undoes what clients have begun that have ended, also while their calls wait."""
        while True:
            for number, _ in self._ends.poll():
                with self._lock:
                    found, owner = self._first.get(number, (None, None))
                if found is None or owner is None:
                    continue
                try:
                    self._end(found, owner)
                except Error as fault:
                    _LOG.warning("what a client left could not be undone: %s", fault)

    def _end(self, found: socket.socket, owner: Owner) -> None:
        """The first connection of a client has ended."""
        with self._lock:
            self._forget(found, owner)
            owner.gone = True
            left = sorted(owner.begun.items())
            others = [other for other in owner.connections if other is not found]
        for name, transaction in left:
            self._undo(name, transaction)
        owner.begun.clear()
        for other in others:
            _shut(other)

    def _undo(self, name: str, transaction: Transaction) -> None:
        if transaction.state == "live":
            _LOG.info("%s is undone, since its client has ended", name)
            try:
                transaction.undo()
            except Error as fault:
                _LOG.info("%s was not undone: %s", name, fault)
        self._drop(name)

    def _undo_last(self, owner: Owner) -> None:
        """Undoes the transaction that was begun last, if nobody was told of it."""
        last = owner.begun.get(getattr(self._told, "name", ""))
        if last is not None:
            self._undo(last.name, last)

    # ---- requests

    _told = threading.local()

    def _reply(self, owner: Owner, line: str) -> str:
        """The reply to a request, whatever it is."""
        self._told.name = ""
        try:
            return self._answer(owner, line.split(" "))
        except (Error, ValueError, TypeError) as fault:
            if isinstance(fault, Failed) and not isinstance(fault, Closed):
                self.failed.set()
            return spelled(fault)

    def _answer(self, owner: Owner, words: list[str]) -> str:
        match words:
            case ["begin", parent, label, *rest]:
                return self._begin(owner, parent, label, options(rest))
            case ["get", name, key]:
                found = self._find(name).get(key)
                return "none" if found is None else f"value {found}"
            case ["set", name, key, value]:
                self._find(name).set(key, int(value))
            case ["add", name, key, value]:
                return f"new {self._find(name).add(key, int(value))}"
            case ["del", name, key]:
                self._find(name).delete(key)
            case ["sum", name, group]:
                return f"value {self._find(name).sum(group)}"
            case ["commit" | "abort" as verb, name]:
                self._finish(verb, name)
            case ["find", name]:
                self._find(name)
            case ["opening"]:
                return _rows(self._jobs.opening)
            case ["table"]:
                return _rows(self._jobs.table)
            case ["remaining"]:
                left = self._jobs.remaining
                return f"remaining {left['calls']} {left['transactions']} {left['keys']}"
            case ["report"]:
                report = self._jobs.report
                return f"report {len(report)}\n{report}"
            case _:
                raise ValueError("this is no request")
        return "ok"

    def _begin(self, owner: Owner, parent: str, label: str, more: dict[str, str]) -> str:
        if self._ending and parent == NOTHING:
            raise Failed("the server is ending, and begins no more jobs")
        above = None if parent == NOTHING else self._find(parent)
        timeout = float(more["timeout"]) if "timeout" in more else self._jobs.timeout
        calls = int(more["calls"]) if "calls" in more else None
        begun = self._jobs._begin(
            None if above is None else above._node,
            None if label == NOTHING else label,
            timeout,
            "alone" in more,
            calls,
            (owner.token, more.get("who", "")),
        )
        begun._parent = above
        with self._lock:
            gone = owner.gone
            if not gone:
                owner.begun[begun.name] = begun
                self._transactions[begun.name] = begun
        if gone:
            begun.undo()
            raise Closed
        self._told.name = begun.name
        return f"begun {begun.name}"

    def _finish(self, verb: str, name: str) -> None:
        found = self._find(name)
        if verb == "commit":
            found.commit()
        else:
            found.undo()
        if "/" not in name:
            self._drop(name)

    def _find(self, name: str) -> Transaction:
        found = self._transactions.get(name)
        if found is None:
            raise Refused("unknown")
        return found

    def _drop(self, name: str) -> None:
        """Forgets a transaction that has ended, and all below it."""
        with self._lock:
            for other in [other for other in self._transactions if other == name or other.startswith(f"{name}/")]:
                self._transactions.pop(other, None)
                for owner in self._owners.values():
                    owner.begun.pop(other, None)


class Lines:
    """The lines of a connection. What is kept of them is bounded."""

    def __init__(self, found: socket.socket) -> None:
        self._socket = found
        self._bytes = b""

    def next(self) -> str | None:
        """The next line, or none at the end of the connection, which comes at a line that is too long."""
        while (end := self._bytes.find(b"\n")) < 0:
            if len(self._bytes) >= MOST_BYTES:
                _say(self._socket, "wrong the line is too long")
                return None
            try:
                more = self._socket.recv(MOST_BYTES)
            except OSError:
                return None
            if not more:
                return None
            self._bytes += more
        line, self._bytes = self._bytes[:end], self._bytes[end + 1 :]
        return line.decode("ascii", "replace")


def _rows(rows: dict[str, int]) -> str:
    return "\n".join([f"rows {len(rows)}", *(f"{key}={value}" for key, value in rows.items())])


def _say(found: socket.socket, text: str) -> bool:
    """Sends lines, and says whether they went out."""
    try:
        found.sendall(f"{text}\n".encode() if not text.startswith("report ") else text.encode())
    except OSError:
        return False
    return True


def _shut(found: socket.socket) -> None:
    try:
        found.shutdown(socket.SHUT_RDWR)
    except OSError:
        pass


def listen_at(path: str) -> socket.socket:
    """A socket that listens at a path and belongs to its user alone. A socket that a server has left there is removed; one that is
    served is not."""
    if os.path.lexists(path):
        if not stat.S_ISSOCK(os.lstat(path).st_mode):
            raise Failed(f"{path} is there, and is no socket")
        if is_served(path):
            raise Failed(f"another server is at {path}")
        os.unlink(path)
    listener = socket.socket(socket.AF_UNIX, socket.SOCK_STREAM)
    before = os.umask(0o177)
    try:
        listener.bind(path)
    except OSError as fault:
        raise Failed(f"no socket can be made at {path}: {fault}") from fault
    finally:
        os.umask(before)
    listener.listen(128)
    return listener


def is_served(path: str) -> bool:
    """Whether somebody listens at a socket."""
    with socket.socket(socket.AF_UNIX, socket.SOCK_STREAM) as asking:
        asking.settimeout(5.0)
        try:
            asking.connect(path)
        except OSError as fault:
            return fault.errno not in (errno.ECONNREFUSED, errno.ENOENT)
    return True
