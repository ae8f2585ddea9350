"""The exceptions of the client."""

from __future__ import annotations


class Error(Exception):
    """What the other exceptions of this package are."""


class Undone(Error):
    """A transaction was undone, and with it what was asked: by a cycle of waits, by a time-out, or on request.

    `name` is the topmost one that was. To go on, begin again under another name.
    """

    def __init__(self, name: str, told: str | None = None) -> None:
        super().__init__(told or f"{name} was undone")
        self.name = name


class TimedOut(Undone):
    """A call waited longer than its time-out, and its own transaction was undone."""

    def __init__(self, name: str) -> None:
        super().__init__(name, f"{name} was undone, since it waited too long")


class Refused(Error):
    """A request was answered and refused. `cause` is the word of the report, as `used`, `children` or `store`."""

    def __init__(self, cause: str) -> None:
        super().__init__(f"refused {cause}")
        self.cause = cause


class Overflow(Error):
    """A sum does not fit 64 bits. An `add` left the value as it was."""

    def __init__(self) -> None:
        super().__init__("the sum does not fit 64 bits")


class Stuck(Error):
    """A request still waited when the run was closed, and nobody could have let it go on."""

    def __init__(self) -> None:
        super().__init__("the request was given up at the end")


class NotTaken(Error):
    """A request was not taken, and changed nothing. `kind` is the program's word, as `name`, `key` or `limit`."""

    def __init__(self, kind: str, told: str | None = None) -> None:
        super().__init__(told or f"the request was not taken: {kind}")
        self.kind = kind


class Full(NotTaken):
    """What the call wants does not fit the run. Nothing was sent, and its transaction is live: it can be committed or undone."""

    def __init__(self, told: str) -> None:
        super().__init__("limit", told)


class Failed(Error):
    """The program or the server ended, or gave what is no reply. What had committed stands in the database."""


class Closed(Failed):
    """The manager was closed before the call."""

    def __init__(self) -> None:
        super().__init__("the manager was closed")


class Forked(Failed):
    """The manager was opened in another process, and came here by a fork. Only that process may use it."""

    def __init__(self) -> None:
        super().__init__("this manager belongs to the process that opened it, and not to a fork of it: open or connect here")
