"""Jobs in parts over a database, by the program `tx live`.

A job is a top-level transaction, and its parts are subtransactions: a part commits into the job, or it is undone alone.

    import bogrunsi

    with bogrunsi.open("jobs.db") as jobs:
        with jobs.begin("night") as night:
            for attempt in night.tries("orders"):       # until one commits
                with attempt as part:
                    part.add("orders.count", load())
            total = night.sum("orders")

A transaction commits at the end of its `with` block, and is undone where an exception leaves the block. Any thread may use
any transaction. `connect` gives the same calls over a server (`python3 -m bogrunsi serve`), which several processes share.

It needs Python 3.11 and nothing else.
"""

from __future__ import annotations

from collections.abc import Sequence

from .errors import Closed, Error, Failed, Forked, Full, NotTaken, Overflow, Refused, Stuck, TimedOut, Undone
from .jobs import Jobs
from .opening import ReportTo
from .remote import Connected
from .shown import Shown, ShownTree, Summary
from .transactions import Manager, Transaction
from .tries import Attempt, Pauses

__version__ = "0.3.0"

__all__ = [
    "Attempt",
    "Closed",
    "Connected",
    "Error",
    "Failed",
    "Forked",
    "Full",
    "Jobs",
    "Manager",
    "NotTaken",
    "Overflow",
    "Pauses",
    "Refused",
    "Shown",
    "ShownTree",
    "Stuck",
    "Summary",
    "TimedOut",
    "Transaction",
    "Undone",
    "__version__",
    "connect",
    "open",
]


def open(
    path: str | None = None,
    *,
    program: str | Sequence[str] = "tx",
    timeout: float | None = None,
    report: ReportTo | None = None,
    wait: float = 2.0,
) -> Jobs:
    """Starts the program over the database at the path, or over an empty table in memory.

    `program` is the program's path, or the words of a command that leads to it. A call waits `timeout` seconds for another
    transaction's lock, or with none as long as it takes; then its own transaction is undone, and it raises `TimedOut`.

    `report` is where the report is written as it grows: a path for that of the first run, and those of later runs have `.2`, `.3`
    and so on behind it; or a function that is given the number of a run and returns a path. A database that another program holds
    is waited for `wait` seconds.
    """
    words = [program] if isinstance(program, str) else list(program)
    return Jobs(words, path, timeout, report, wait)


def connect(path: str, *, timeout: float | None = None) -> Connected:
    """Connects to the server at a socket, which gives the same calls as `open`.

    What this client has begun is undone when the connection ends, however it does. A call waits `timeout` seconds for a lock, or as long
    as the server says.
    """
    return Connected(path, timeout)
