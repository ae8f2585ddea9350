"""One run of the program: requests, each with its reply.

One request is under way at a time. The caller holds the lock of the manager, writes its request, and reads until the request's own line
has come. While lines of other calls wait, an empty line is sent with each request: the line that tells of it comes behind all that the
request brought about, so that nothing is left in the pipe that somebody waits for.

A caller that is cut off by an exception leaves its request under way (`flight`). The next one reads its reply first: `settle`. If it is
not known that the request was written, an empty line follows, and the number that is told of it says so.
"""

from __future__ import annotations

import os
import threading
from itertools import repeat

from .errors import Forked, Full
from .intake import Call, Intake
from .pipe import Pipe
from .report import Report
from .sessions import MOST_LINES, Session
from .tree import Node
from .turns import Turns
from .words import word

_READ = os.read
_WRITE = os.write
_ME = threading.get_ident
# An answer that comes alone is shorter.
_SIZE = 448
# The number of a line as it stands behind the label.
_PLACES = tuple(f" {number}" for number in range(MOST_LINES + 1))
_LINE_FEED = 10
_KEY_BYTES = frozenset("abcdefghijklmnopqrstuvwxyz0123456789._-")

#: A request that was sent in the short way: its node, verb, key and value, its text behind a space, its session, its place there, and how
#: many bytes of the report were written before.
Flight = tuple[Node, str, str, int | None, str, Session, int, int]


class Run(Intake):
    """A run over the program at the other end of a pipe."""

    def __init__(self, pipe: Pipe, report: Report | None) -> None:
        super().__init__(pipe, report)
        self._input = pipe.input
        # Reads each time it is asked for the next item.
        self._reads = map(_READ, repeat(pipe.output), repeat(_SIZE))
        self._chunks = pipe.chunks
        #: The request that is under way.
        self.flight: Call | Flight | None = None
        #: The session of the next call of the short way. There is none while a request is under way, lines are short, or calls wait.
        self.ready: Session | None = None
        # A session, and how many of its lines were answered when so many lines had been sent and so many chunks taken up. Since then
        # there were calls of the short way alone, with one line and one chunk each.
        self._base = (self.sessions.current, 0, 0, 0)
        # How many bytes of the report were written.
        self._written = 0
        self.known = self.tree.known
        self.lock = threading.Lock()
        self.turns = Turns()

    def access(self, node: Node, verb: str, key: str, value: int | None, text: str, usual: str) -> int | None | Call:
        """What an access returns, or the call where it is not over. It goes the short way where nothing is under way and nobody waits.

        `text` is the request behind a space, and `usual` what stands between it and the number, or ends the line, where all went well.
        """
        if key not in self.known:
            meet(self, verb, key)
        turns = self.turns
        if turns.line or (turns.busy is not None and turns.busy is not node):
            turns.stand(_ME())
        turns.busy = node
        with self.lock:
            session = self.ready
            if session is not None:
                done = self._short(session, node, verb, key, value, text, usual)
            else:
                done = Call(node, verb, key, value, text[1:])
        # Where the call was cut off, those that stand in line find out.
        if turns.busy is node:
            turns.busy = None
        if turns.line:
            turns.hand_on(_ME())
        return done

    def _short(
        self, session: Session, node: Node, verb: str, key: str, value: int | None, text: str, usual: str
    ) -> int | None | Call:
        """The short way, by a session that is ready. What is no usual answer goes on in the long way."""
        place = session.taken + 1
        self.ready = None
        self.flight = flight = (node, verb, key, value, text, session, place, self._written)
        try:
            _WRITE(self._input, f"{session.label}{text}\n".encode())
        except BrokenPipeError:
            # The program has ended. That is told by what is read.
            return self._slow(flight, True)
        node.used = True
        for chunk in self._reads:
            # The interpreter handles no signal between the read and this step, so nothing that was read is lost.
            self._chunks.append(chunk)
            break
        reply = chunk.removeprefix(f"{session.label}{_PLACES[place]}{text}{usual}".encode())
        if not reply and chunk:
            # A set or a delete was done. Without any bytes the program has ended.
            node.writes[key] = value
            value = None
        elif reply is not chunk and reply[-1] == _LINE_FEED and (reply[:-1].isdigit() or _is_negative(reply)):
            value = int(reply)
            if verb == "add":
                node.writes[key] = value
        elif verb != "get" or chunk != f"{session.label} {place}{text} -> none\n".encode():
            return self._slow(flight, False)
        if self._report is not None:
            self._report.put(chunk, self._written)
            self._written += len(chunk)
        session.taken = place
        if place == MOST_LINES:
            self.settle()
        else:
            self.flight = None
            self.ready = session
        return value

    def _slow(self, flight: Flight, doubtful: bool) -> Call:
        """Goes on in the long way. The call says what became of it."""
        call = self._unfold(flight, doubtful)
        self.settle()
        return call

    def exchange(self, call: Call) -> None:
        """Sends a request and reads until its own line has come, and all that it brought about. Nothing may be under way."""
        session = self.sessions.current
        if session.call is not None or session.taken >= MOST_LINES:
            raise Full("the run has no lines left")
        call.session = session
        call.place = session.taken + 1
        data = f"{session.label} {call.text}\n"
        if self.waiting:
            data += "\n"
        self._board(call, 2 if self.waiting else 1)
        self._pipe.write(data.encode(), call.sent)
        if call.last > call.first or not self._is_done(call, session):
            self.settle()

    def _is_done(self, call: Call, session: Session) -> bool:
        """Reads once, and takes the answer up where it came alone and the request was done."""
        chunk = self._pipe.read()
        if chunk != f"{session.label} {call.place} {call.text} -> ok\n".encode():
            return False
        self._answer(call, "ok")
        call.landed = True
        written = self._place[3]
        if self._report is not None:
            self._report.put(chunk, written)
        self._place = (len(self._chunks), b"", 0, written + len(chunk))
        if session.taken >= MOST_LINES:
            return False
        self._depart(call)
        return True

    def _counts(self) -> tuple[int, int]:
        """How many lines were sent, and how many chunks were taken up. No call of the long way is under way."""
        session, taken, sent, came = self._base
        since = session.taken - taken
        return sent + since, came + since

    def _board(self, call: Call, lines: int) -> None:
        """Notes that a call is about to be sent, with so many lines."""
        sent, came = self._counts()
        call.first = sent + 1
        call.last = sent + lines
        self._place = (came, b"", 0, self._written)
        self.ready = None
        self.flight = call
        self._under_way = call
        if call.session is not None:
            call.session.call = call

    def _depart(self, call: Call) -> None:
        """Notes that all has come which a call brought about."""
        self._written = self._place[3]
        if call.session is not None and call.session.label not in self.waiting:
            call.session.call = None
        self._under_way = None
        self.count()
        current = self.sessions.current
        self._base = (current, current.taken, call.last if call.sent else call.first - 1, len(self._chunks))
        self._clear()

    def _clear(self) -> None:
        """Notes that nothing is under way. That the short way is open is the last that is noted, and the first that is taken back."""
        self.flight = None
        self.ready = self.sessions.current if self.spare > 0 and not self.waiting else None

    def mark(self) -> None:
        """Reads all that has come about, up to the answer to an empty line."""
        call = Call(None, "", "", None, "")
        self._board(call, 1)
        self._pipe.write(b"\n", call.sent)
        self.settle()

    def listen(self) -> None:
        """Reads what came without a request: the program is about to end."""
        call = Call(None, "", "", None, "")
        self._board(call, 0)
        self.read()
        while self.fault is None and not self.is_even():
            self.read()
        self._depart(call)

    def settle(self) -> None:
        """Reads until all that the request under way brought about has come. A request that was not written is dropped."""
        flight = self.flight
        if flight is None:
            return
        if isinstance(flight, Call):
            call = flight
        elif flight[5].taken == flight[6]:
            # It was answered, and only what follows was cut off.
            sent, came = self._counts()
            self.sessions.turn()
            self.count()
            self._base = (self.sessions.current, self.sessions.current.taken, sent, came)
            self._clear()
            return
        else:
            call = self._unfold(flight, True)
        self._under_way = call
        if call.doubtful and not call.sent:
            self._pipe.write(b"\n", call.sent)
        if call.sent:
            self._take_all()
            while self.fault is None and not (call.landed and self.is_even()):
                self.read()
        if call.session is not None and call.session.label not in self.waiting:
            call.session.call = None
        self.sessions.turn()
        self._depart(call)

    def close(self) -> None:
        """Ends the input, and reads the rest of the report."""
        if self.fault is None:
            self.settle()
            self._board(Call(None, "", "", None, ""), 0)
            self._pipe.end_input()
            while self.fault is None:
                self.read()
        if self.fault is not Forked:
            self._pipe.drop()
        if self._report is not None:
            self._report.close()

    def forked(self, lock: threading.Lock, turns: Turns) -> None:
        """In a forked child: lets go of the streams, and refuses all calls."""
        self.lock = lock
        self.turns = turns
        self._pipe.forked()
        self.ready = None
        self.flight = None
        self.fault = Forked
        self.count()

    def _unfold(self, flight: Flight, doubtful: bool) -> Call:
        """A request that was sent in the short way, as a call. If it is not known that it was written, a mark is to follow."""
        node, verb, key, value, text, session, place, written = flight
        call = Call(node, verb, key, value, text[1:])
        call.session, call.place = session, place
        call.doubtful = doubtful
        if not doubtful:
            call.sent.append(0)
        self._written = written
        self._board(call, 2 if doubtful else 1)
        return call


def _is_negative(reply: bytes) -> bool:
    """Whether it is a number below 0, and a line feed."""
    return reply[:1] == b"-" and reply[1:-1].isdigit()


def meet(run: Run, verb: str, key: str) -> None:
    """Notes that the run knows a key from now on, if it is one."""
    word(key)
    if verb != "sum" and len(key) <= 32 and _KEY_BYTES.issuperset(key):
        run.known.add(key)
