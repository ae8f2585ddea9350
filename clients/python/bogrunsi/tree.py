"""What a client has seen of one run: its transactions, the keys that it knows, and the rows that were committed.

Each change is made so that making it twice comes to the same: a step that was cut by an exception is done again from the report.
"""

from __future__ import annotations

from typing import TYPE_CHECKING

if TYPE_CHECKING:
    from .run import Run

LIVE = "live"
COMMITTED = "committed"
UNDONE = "undone"
#: A transaction whose `begin` has no answer yet.
ASKED = "asked for"

MOST_TRANSACTIONS = 16384
MOST_KEYS = 4096


class Node:
    """A transaction, as far as it was seen."""

    __slots__ = ("name", "parent", "run", "state", "used", "who", "writes")

    def __init__(self, name: str, parent: Node | None, run: Run | None, who: object) -> None:
        self.name = name
        self.parent = parent
        #: The run that it is of. With a server there is none to be seen.
        self.run = run
        self.state = ASKED
        #: Whether it, or a part that committed into it, has asked for a key: it may hold locks.
        self.used = False
        #: Who began it: a thread, or one of a connection.
        self.who = who
        #: The values that it has given to keys, or none where it took them away.
        self.writes: dict[str, int | None] = {}

    def holds(self) -> bool:
        """Whether it or one above it may hold locks."""
        node: Node | None = self
        while node is not None:
            if node.used:
                return True
            node = node.parent
        return False

    def is_below(self, name: str) -> bool:
        """Whether it is the transaction of that name, or one below it."""
        return self.name == name or self.name.startswith(f"{name}/")


class Tree:
    """The transactions of a run, its keys and its committed rows."""

    def __init__(self) -> None:
        #: Those that have begun and not ended, in the order in which they began.
        self.live: dict[str, Node] = {}
        #: All names that were used.
        self.names: set[str] = set()
        #: All keys that the run may know.
        self.known: set[str] = set()
        #: The rows at the opening, and those of the end.
        self.opening: dict[str, int] = {}
        self.final: dict[str, int] = {}
        #: The rows as the commits that were seen leave them.
        self.table: dict[str, int] = {}

    def open_row(self, key: str, value: int) -> None:
        """Takes a row of the opening."""
        self.opening[key] = value
        self.table[key] = value
        self.known.add(key)

    def begun(self, node: Node) -> None:
        """A transaction has begun."""
        node.state = LIVE
        self.live[node.name] = node
        self.names.add(node.name)

    def committed(self, node: Node) -> None:
        """A transaction has committed into its parent, or into the database."""
        if node.parent is not None:
            node.parent.writes.update(node.writes)
            node.parent.used = node.parent.used or node.used
        else:
            for key, value in node.writes.items():
                if value is None:
                    self.table.pop(key, None)
                else:
                    self.table[key] = value
        node.state = COMMITTED
        self.live.pop(node.name, None)

    def undone(self, name: str) -> None:
        """A transaction was undone, and all that are live below it."""
        for node in [node for node in self.live.values() if node.is_below(name)]:
            node.state = UNDONE
            self.live.pop(node.name, None)

    def jobs(self) -> list[Node]:
        """The top-level transactions that are live."""
        return [node for node in self.live.values() if node.parent is None]

    def beside(self, parent: Node | None) -> list[Node]:
        """The live transactions that are neither the parent nor above it."""
        return [node for node in self.live.values() if parent is None or not parent.is_below(node.name)]


def keys_of(rows: dict[str, int], group: str) -> list[str]:
    """The keys of a group among the rows, in the order of their bytes."""
    return sorted(key for key in rows if key.startswith(f"{group}."))

