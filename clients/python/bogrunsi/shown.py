"""What became of each transaction of a run, read off its report: the tree that `tx show` prints.

`tx show` is proved to print what the definitions in `crates/report_trees` and `crates/tree_lines` say. This is a second reading of the same
definitions, of which nothing is proved. It also takes a report that has not come to its end.
"""

from __future__ import annotations

import re
from collections.abc import Iterator
from dataclasses import dataclass, field

#: The outcomes, in the words of `tx show`.
COMMITTED = "committed"
ON_REQUEST = "undone on request"
AS_VICTIM = "undone as a victim"
AT_CLOSE = "undone at the close"
WITH_PARENT = "undone with its parent"
AFTER_COMMIT = "undone after its commit"
LIVE = "live"
# Those of a transaction that an abort of its own has undone, before the close.
_OWN = (ON_REQUEST, AS_VICTIM)

#: The causes of refusals, in the order of `tx show`. An orphan's line is refused too.
CAUSES = ("unknown", "used", "no-parent", "orphan", "done", "children", "waiting", "full", "store")

_ENTRY = re.compile(r"([a-z0-9]{1,16}) [1-9][0-9]* ([a-z]+) ([^ ]+)(?: [^ ]+)* -> ([^ ]+)(?: ([^ ]+))?")
_ACCESSES = ("get", "set", "add", "del", "sum")


@dataclass(frozen=True, slots=True)
class Shown:
    """A transaction that has begun."""

    #: The whole name.
    name: str
    #: How many transactions stand above it: 0 for a job.
    level: int
    #: What became of it, in the words of `tx show`. One that has not ended is `live`.
    outcome: str
    #: How many accesses it was answered.
    accesses: int
    #: How often a line of it waited and was answered, and for how many entries in all.
    waits: int
    waited: int
    #: The numbers of the entries by which it began and ended, from 0. It may end with a transaction above it.
    began: int
    ended: int | None

    @property
    def label(self) -> str:
        """The last label of the name."""
        return self.name.rpartition("/")[2]

    @property
    def is_undone(self) -> bool:
        """Whether what it did is undone, by itself or with a transaction above it."""
        return self.outcome not in (COMMITTED, LIVE)

    def __str__(self) -> str:
        """The line of `tx show`."""
        counts = f"accesses {self.accesses}; waits {self.waits} over {self.waited} entries"
        return f"{'  ' * self.level}{self.label}: {self.outcome}; {counts}"


@dataclass(frozen=True, slots=True)
class Summary:
    """How many there were of what."""

    #: Jobs are top-level transactions, parts all others. A part was tried again where an abort of its own undid it, and the next
    #: part of the same parent began later.
    jobs_committed: int
    jobs_undone: int
    parts_committed: int
    parts_undone: int
    parts_tried_again: int
    #: How many transactions were undone to break a cycle of waits.
    victims: int
    #: How many lines were refused, by each cause.
    refused: dict[str, int]
    #: How many lines were given up.
    stuck: int
    #: How many lines waited, whether they were answered or not.
    waits: int

    def __str__(self) -> str:
        """The last lines of `tx show`."""
        causes = ", ".join(f"{cause} {self.refused[cause]}" for cause in CAUSES)
        return (
            f"jobs: committed {self.jobs_committed}, undone {self.jobs_undone}\n"
            f"parts: committed {self.parts_committed}, undone {self.parts_undone}, tried again {self.parts_tried_again}\n"
            f"victims: {self.victims}\nrefused: {causes}\nstuck: {self.stuck}\nwaits: {self.waits}\n"
        )


@dataclass(frozen=True, slots=True)
class ShownTree:
    """The transactions of a run in the order of the tree: each is followed by those below it, and siblings stand in order of
    beginning."""

    transactions: tuple[Shown, ...]
    summary: Summary

    @property
    def all_done(self) -> bool:
        """Whether each transaction committed, with all above it, and no line was refused or given up. One that is live did not. By `--strict`
        the status of `tx show` tells it."""
        failed = self.summary.stuck or any(self.summary.refused.values())
        return not failed and all(shown.outcome == COMMITTED for shown in self.transactions)

    def __str__(self) -> str:
        """What `tx show` prints of the report."""
        return "".join(f"{shown}\n" for shown in self.transactions) + str(self.summary)


def tree_of(report: str) -> ShownTree:
    """The tree of a report, or of the beginning of one."""
    entries = _Entries()
    for number, line in enumerate(_entries_in(report)):
        entries.take(number, line)
    transactions = tuple(entries.shown())
    return ShownTree(transactions, entries.summary(transactions))


def _entries_in(report: str) -> Iterator[str]:
    """The lines between the opening rows and the table."""
    for line in report.splitlines():
        if line == "table":
            return
        if " " in line:
            yield line


@dataclass(slots=True)
class _Told:
    """What the entries tell of a transaction."""

    name: str
    began: int
    committed: int | None = None
    aborted: tuple[int, str] | None = None
    accesses: int = 0
    waits: int = 0
    waited: int = 0
    parts: list[_Told] = field(default_factory=list)

    def shown(self, level: int, above: int | None) -> Iterator[Shown]:
        """It and all below it. `above` is the entry that has undone what is above it, if one has."""
        ended: int | None
        if self.aborted is not None:
            ended, outcome = self.aborted
        elif self.committed is not None:
            ended, outcome = self.committed, COMMITTED if above is None else AFTER_COMMIT
        else:
            ended, outcome = above, LIVE if above is None else WITH_PARENT
        yield Shown(self.name, level, outcome, self.accesses, self.waits, self.waited, self.began, ended)
        for part in self.parts:
            yield from part.shown(level + 1, above if self.aborted is None else self.aborted[0])


class _Entries:
    """What the entries tell so far."""

    def __init__(self) -> None:
        self._jobs: list[_Told] = []
        self._told: dict[str, _Told] = {}
        # The lines that wait, by the labels of their sessions: whose they are, and the number of the entry.
        self._waiting: dict[str, tuple[_Told, int]] = {}
        self._victims = 0
        self._stuck = 0
        self._waits = 0
        self._refused = dict.fromkeys(CAUSES, 0)

    def take(self, number: int, line: str) -> None:
        """Takes the next entry."""
        if line.startswith("* "):
            _, verb, name = line.split(" ")
            self._victims += verb == "victim"
            self._abort(number, name, AS_VICTIM if verb == "victim" else AT_CLOSE)
        elif entry := _ENTRY.fullmatch(line):
            label, verb, name, reply, more = entry.groups()
            self._answer_wait(number, label)
            self._line(number, label, verb, name, reply, more)

    def _line(self, number: int, label: str, verb: str, name: str, reply: str, more: str | None) -> None:
        told = self._told.get(name)
        if reply == "refused" or reply == "orphan":
            self._refused["orphan" if more is None or reply == "orphan" else more] += 1
        elif reply == "stuck":
            self._stuck += 1
        elif verb == "begin":
            self._begin(number, name)
        elif told is None:
            return
        elif reply == "waits":
            self._waits += 1
            self._waiting[label] = told, number
        elif verb in _ACCESSES:
            told.accesses += 1
        elif verb == "commit":
            told.committed = number
        elif verb == "abort":
            self._abort(number, name, ON_REQUEST)

    def _answer_wait(self, number: int, label: str) -> None:
        """A session goes on, and a line of it that waits has its answer."""
        waiting = self._waiting.pop(label, None)
        if waiting is not None:
            told, since = waiting
            told.waits += 1
            told.waited += number - since

    def _begin(self, number: int, name: str) -> None:
        told = self._told[name] = _Told(name, number)
        parent = self._told.get(name.rpartition("/")[0])
        (self._jobs if parent is None else parent.parts).append(told)

    def _abort(self, number: int, name: str, outcome: str) -> None:
        told = self._told.get(name)
        if told is not None:
            told.aborted = number, outcome

    def shown(self) -> Iterator[Shown]:
        """All transactions, in the order of the tree."""
        for job in self._jobs:
            yield from job.shown(0, None)

    def summary(self, shown: tuple[Shown, ...]) -> Summary:
        """The counts of these transactions and of the entries."""
        jobs = [one for one in shown if one.level == 0]
        parts = [one for one in shown if one.level > 0]
        return Summary(
            jobs_committed=sum(one.outcome == COMMITTED for one in jobs),
            jobs_undone=sum(one.is_undone for one in jobs),
            parts_committed=sum(one.outcome == COMMITTED for one in parts),
            parts_undone=sum(one.is_undone for one in parts),
            parts_tried_again=_tried_again(shown),
            victims=self._victims,
            refused=self._refused,
            stuck=self._stuck,
            waits=self._waits,
        )


def _tried_again(shown: tuple[Shown, ...]) -> int:
    """How many parts were undone by an abort of their own, and followed by another one of the same parent that began later."""
    count = 0
    # The last one of each level that has no sibling behind it yet.
    last: list[Shown] = []
    for one in shown:
        before = last[one.level] if one.level < len(last) else None
        del last[one.level :]
        last.append(one)
        if one.level > 0 and before is not None and before.outcome in _OWN and before.ended is not None:
            count += before.ended < one.began
    return count
