"""What comes from the program: each line taken up once, and each reply given to the call that it answers.

A reply is given to a call only where the label of the session, the number of the line and the text are those of the call. Anything else
ends the run at once.

An exception of a signal handler may cut a step off. So each step that takes a line up may be done again, and then comes to the same; and
how far the lines were taken up is one value, which is set once a step is whole.
"""

from __future__ import annotations

import re
import threading
from collections.abc import Callable

from .errors import Closed, Failed
from .pipe import Pipe
from .report import Report
from .sessions import Session, Sessions, kept
from .tree import UNDONE, Node, Tree

_FAULT = re.compile(r"tx: line ([1-9][0-9]*): ([a-z]+)")
_ENTRY = re.compile(r"([a-z0-9]{1,16}) ([1-9][0-9]*) (.+) -> (.+)")
_ROW = re.compile(r"([a-z0-9._-]{1,32})=(0|-?[1-9][0-9]*)")


class Call:
    """A request, and what has come back."""

    #: The session that it was sent by, and the number of its line there.
    session: Session | None = None
    place = 0
    #: The numbers of its first and its last line in the input of the run.
    first = 0
    last = 0
    #: Whether it is not known that it was written. The number that the mark behind it has tells it.
    doubtful = False
    #: The reply, once it was answered.
    reply: str | None = None
    #: Why it was not taken.
    kind: str | None = None
    #: Whether all that it brought about was read.
    landed = False
    #: Opened once it was answered. There is none until it waits.
    gate: threading.Lock | None = None

    def __init__(self, node: Node | None, verb: str, key: str, value: int | None, text: str) -> None:
        self.node = node
        self.verb = verb
        self.key = key
        self.value = value
        self.text = text
        #: It has an item once the request was written, or the mark behind one that is doubtful.
        self.sent: list[int] = []

    def wake(self) -> None:
        """Opens the gate, which may be open."""
        if self.gate is not None:
            try:
                self.gate.release()
            except RuntimeError:
                pass


class Intake:
    """The lines of a run, as they come."""

    def __init__(self, pipe: Pipe, report: Report | None) -> None:
        self._pipe = pipe
        self._report = report
        self.sessions = Sessions()
        self.tree = Tree()
        #: The request that is under way.
        self._under_way: Call | None = None
        #: The calls that wait, by their sessions' labels.
        self.waiting: dict[str, Call] = {}
        #: How many lines an access can leave to others beyond those that are kept back. Above 0 one can be sent.
        self.spare = 0
        #: Makes what calls raise from now on.
        self.fault: Callable[[], Failed] | None = None
        #: The last of `open`, `table` and `end` that came.
        self.part: str | None = None
        #: Lines that are none of a report and tell of no request.
        self.stray: dict[str, None] = {}
        #: Called where a transaction has ended.
        self.ended: Callable[[], None] = lambda: None
        # How many chunks were taken up, those of their bytes that are still to be taken, how many of those were taken, and how many
        # bytes of the report were written.
        self._place = (0, b"", 0, 0)

    def read(self) -> None:
        """Reads what comes next, and takes it up."""
        if self._pipe.read():
            self._take_all()
        else:
            self._end()

    def is_even(self) -> bool:
        """Whether all that came was taken up, and no line of it is cut."""
        return self._place[2] == len(self._place[1])

    def count(self) -> None:
        """Counts the lines that may be used."""
        self.spare = self.sessions.others - kept(len(self.tree.live)) if self.fault is None else -1

    def has_more(self) -> bool:
        """Whether bytes came that nobody asked for: the program has ended."""
        return self.fault is None and self._pipe.has_more()

    @property
    def whole(self) -> bool:
        """Whether the report came to its end."""
        return self.part == "end" and self.fault is not None and isinstance(self.fault(), Closed)

    @property
    def text(self) -> str:
        """The report as far as it has come."""
        lines = b"".join(self._pipe.chunks).splitlines(keepends=True)
        return b"".join(line for line in lines if not line.startswith(b"tx: ") and line.endswith(b"\n")).decode()

    @property
    def report_fault(self) -> OSError | None:
        """Why the file of the report is not whole."""
        return None if self._report is None else self._report.fault

    def stop(self, fault: Callable[[], Failed]) -> None:
        """Says what calls raise from now on, and wakes those that wait."""
        if self.fault is None:
            self.fault = fault
        self.count()
        for call in list(self.waiting.values()):
            call.wake()
        self.ended()

    def break_off(self, why: str) -> None:
        """Ends a run whose program gives what makes no sense: no call waits for more of it."""
        self._pipe.kill()
        self.stop(lambda: Failed(why))

    # ---- lines

    def _take_all(self) -> None:
        """Takes up all whole lines that were read."""
        count, rest, start, written = self._place
        chunks = self._pipe.chunks
        if count < len(chunks):
            ahead = len(chunks)
            rest = rest[start:] + b"".join(chunks[count:ahead])
            count, start = ahead, 0
        while (end := rest.find(b"\n", start)) >= 0 and self.fault is None:
            written = self._take(rest[start : end + 1], written)
            start = end + 1
            self._place = (count, rest, start, written)
        self._place = (count, rest, start, written)
        self._release()

    def _release(self) -> None:
        """Gives the sessions of calls back that waited and were answered, and wakes these calls."""
        for label, call in list(self.waiting.items()):
            if call.reply is not None:
                assert call.session is not None
                call.session.call = None
                self.waiting.pop(label, None)
                self.sessions.turn()
                call.wake()

    def _take(self, line: bytes, written: int) -> int:
        """Takes a line, and says how many bytes of the report there are behind it."""
        text = line[:-1].decode("utf-8", "backslashreplace")
        if text.startswith("tx: ") or (self.part is None and text != "open"):
            if fault := _FAULT.fullmatch(text):
                self._not_taken(int(fault[1]), fault[2], text)
            else:
                self.stray[text] = None
            return written
        if self._report is not None:
            self._report.put(line, written)
        if text in ("open", "table", "end"):
            self.part = text
        elif text.startswith(("* victim ", "* close ")):
            self.tree.undone(text.split(" ")[2])
            self.ended()
        elif entry := _ENTRY.fullmatch(text):
            self._entry(entry[1], int(entry[2]), entry[3], entry[4], text)
        elif row := _ROW.fullmatch(text):
            if self.part == "open":
                self.tree.open_row(row[1], int(row[2]))
            else:
                self.tree.final[row[1]] = int(row[2])
        else:
            self.break_off(f"the program printed {text!r}, which is no line of a report")
        return written + len(line)

    def _not_taken(self, number: int, kind: str, text: str) -> None:
        """Takes a line that tells of one of the input: of a request that was not taken, or of the mark behind one."""
        call = self._under_way
        if call is None or not call.first <= number <= call.last:
            self.break_off(f"the program told {text!r} of a line that was not sent")
        elif kind == "empty":
            # Where the mark has the number of the request, that was not written.
            call.last = number
            call.landed = True
        else:
            call.kind = kind
            call.landed = call.landed or number == call.last

    def _entry(self, label: str, number: int, text: str, reply: str, line: str) -> None:
        """Takes the entry of a request: its answer, or that it waits."""
        session = self.sessions.find(label)
        call = session.call if session is not None else None
        if call is None or call.place != number or call.text != text:
            self.break_off(f"the program answered {line!r}, which is no request that waits for an answer")
            return
        if reply == "waits":
            if call.gate is None:
                gate = threading.Lock()
                gate.acquire()
                call.gate = gate
            self.waiting[label] = call
        else:
            self._answer(call, reply)
        if call is self._under_way and call.last == call.first:
            call.landed = True

    def _answer(self, call: Call, reply: str) -> None:
        """Takes up what an answer says. The call is answered once all that has been noted."""
        node = call.node
        assert node is not None and call.session is not None
        if reply == "ok":
            if call.verb == "set":
                node.writes[call.key] = call.value
            elif call.verb == "del":
                node.writes[call.key] = None
            elif call.verb == "begin":
                self.tree.begun(node)
            elif call.verb == "commit":
                self.tree.committed(node)
                self.ended()
            elif call.verb == "abort":
                self.tree.undone(node.name)
                self.ended()
        elif reply.startswith("new "):
            node.writes[call.key] = int(reply[4:])
        elif reply.startswith("orphan "):
            self.tree.undone(reply[7:])
            node.state = UNDONE
            self.ended()
        call.session.taken = call.place
        call.reply = reply

    def _end(self) -> None:
        """The output has ended."""
        _, rest, start, _ = self._place
        if rest[start:]:
            self.stray[rest[start:].decode("utf-8", "backslashreplace")] = None
        status = self._pipe.status()
        told = "; ".join(self.stray) or "it did not say why"
        if self.part == "end" and status == 0:
            self.stop(Closed)
        elif self.part is None and status == 2:
            self.stop(lambda: Failed(f"this program serves no live sessions: {told}"))
        else:
            self.stop(lambda: Failed(f"the program ended with status {status}: {told}"))
