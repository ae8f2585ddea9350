"""Tests of what the client once did wrong with numbers, replies, interrupts and limits."""

from __future__ import annotations

import decimal
import fractions
import random
import signal
import threading
import time
import unittest
from types import FrameType

import bogrunsi
from tests.support import PROGRAM, needs_program, stand_in


class Numbers(unittest.TestCase):
    """Values are whole numbers, and nothing is cut."""

    def test_what_is_no_whole_number(self) -> None:
        with stand_in({}) as jobs:
            job = jobs.begin("a")
            for value in (19.99, 1.0, decimal.Decimal("5.75"), fractions.Fraction(1, 2), "5", None, True):
                with self.assertRaises(TypeError):
                    job.set("x", value)  # type: ignore[arg-type]
                with self.assertRaises(TypeError):
                    job.add("x", value)  # type: ignore[arg-type]
            self.assertNotIn("x", jobs.report)

    def test_what_is_one(self) -> None:
        class Seven:
            def __index__(self) -> int:
                return 7

        with stand_in({}) as jobs:
            job = jobs.begin("a")
            job.set("x", Seven())  # type: ignore[arg-type]
            job.set("x", -(2**63))
            self.assertIn("set a x 7 -> ok\ns1 3 set a x -9223372036854775808 -> ok\n", jobs.report)


class Replies(unittest.TestCase):
    """A reply is a call's own by session, number and text, or the run is broken."""

    def broken(self, lines: list[str]) -> None:
        jobs = stand_in({"get a x": lines})
        job = jobs.begin("a")
        self.assertRaises(bogrunsi.Failed, job.get, "x")
        self.assertRaises(bogrunsi.Failed, job.get, "y")
        self.assertRaises(bogrunsi.Failed, jobs.close)

    def test_another_text(self) -> None:
        self.broken(["s1 2 get a y -> value 5"])

    def test_another_number(self) -> None:
        self.broken(["s1 3 get a x -> value 5"])

    def test_another_session(self) -> None:
        self.broken(["s2 2 get a x -> value 5"])

    def test_a_session_that_is_none(self) -> None:
        self.broken(["z 2 get a x -> value 5"])

    def test_another_line(self) -> None:
        self.broken(["tx: line 7: key"])

    def test_no_report(self) -> None:
        self.broken(["what is this"])

    def test_a_late_answer_to_a_waiting_call_of_another(self) -> None:
        jobs = stand_in({"get a x": ["= waits"], "get b y": ["s1 3 get a z -> value 1", "= value 2"]})
        one, other = jobs.begin("a"), jobs.begin("b")
        raised: list[BaseException] = []

        def waiting() -> None:
            try:
                one.get("x")
            except bogrunsi.Failed as fault:
                raised.append(fault)

        thread = threading.Thread(target=waiting)
        thread.start()
        while "waits" not in jobs.report:
            time.sleep(0.01)
        self.assertRaises(bogrunsi.Failed, other.get, "y")
        thread.join(10)
        self.assertEqual(len(raised), 1)


class Soft(Exception):
    """What a signal handler raises."""


class Interrupts(unittest.TestCase):
    """A call that is cut off by an exception between any two steps costs the calls behind it nothing."""

    def fuzzed(self, jobs: bogrunsi.Jobs, seconds: float, longest: float) -> None:
        """Asks for values that are known, and cuts calls off at random moments."""
        job = jobs.begin("t")
        for number in range(20):
            job.set(f"k{number}", number)
        chance = random.Random(7)
        armed = False

        def handler(number: int, frame: FrameType | None) -> None:
            if armed:
                raise Soft

        before = signal.signal(signal.SIGALRM, handler)
        answered = 0
        until = time.monotonic() + seconds
        try:
            while time.monotonic() < until and answered < 40000:
                number = chance.randrange(20)
                try:
                    try:
                        armed = True
                        signal.setitimer(signal.ITIMER_REAL, chance.uniform(0.000001, longest))
                        self.assertEqual(job.get(f"k{number}"), number)
                        armed = False
                        answered += 1
                    except Soft:
                        pass
                    finally:
                        armed = False
                except Soft:
                    pass
        finally:
            signal.setitimer(signal.ITIMER_REAL, 0)
            signal.signal(signal.SIGALRM, before)
        self.assertEqual(job.get("k7"), 7)
        self.assertGreater(jobs.remaining["calls"], 0)
        job.commit()

    @needs_program
    def test_calls_at_any_moment(self) -> None:
        for longest in (0.00002, 0.00008, 0.0004):
            with bogrunsi.open(program=PROGRAM, timeout=2) as jobs:
                self.fuzzed(jobs, 3.0, longest)
            self.assertEqual(jobs.table["k7"], 7)

    @needs_program
    def test_an_interrupted_wait(self) -> None:
        def handler(number: int, frame: FrameType | None) -> None:
            raise Soft

        with bogrunsi.open(program=PROGRAM) as jobs:
            one = jobs.begin("one")
            one.set("x", 1)
            before = signal.signal(signal.SIGALRM, handler)
            try:
                for _ in range(100):
                    with self.assertRaises(Soft), jobs.begin() as other:
                        signal.setitimer(signal.ITIMER_REAL, 0.01)
                        other.set("x", 2)
            finally:
                signal.setitimer(signal.ITIMER_REAL, 0)
                signal.signal(signal.SIGALRM, before)
            one.commit()
            with jobs.begin() as other:
                self.assertEqual(other.get("x"), 1)


@needs_program
class Limits(unittest.TestCase):
    """Nobody waits for ever where lines or sessions end."""

    def joined(self, threads: list[threading.Thread], seconds: float) -> None:
        for thread in threads:
            thread.start()
        until = time.monotonic() + seconds
        for thread in threads:
            thread.join(max(0.1, until - time.monotonic()))
        self.assertEqual(sum(thread.is_alive() for thread in threads), 0)

    def test_lines_that_end(self) -> None:
        # Two threads use one key until there are no lines. Each is told, and the job at hand can be committed.
        told: list[str] = []
        committed = 0

        def work(number: int) -> None:
            nonlocal committed
            count = 0
            while True:
                job = None
                try:
                    job = jobs.begin(f"w{number}x{count}")
                    for _ in range(2000):
                        job.add("hot", 1)
                    job.commit()
                    committed += 2000
                except bogrunsi.Undone:
                    pass
                except bogrunsi.NotTaken as full:
                    told.append(full.kind)
                    if job is not None:
                        job.undo()
                    return
                count += 1

        jobs = bogrunsi.open(program=PROGRAM)
        self.joined([threading.Thread(target=work, args=(number,), daemon=True) for number in range(2)], 60)
        self.assertEqual(told, ["limit"] * 2)
        jobs.close()
        self.assertEqual(jobs.table["hot"], committed)

    def test_a_job_at_the_limit_commits(self) -> None:
        with bogrunsi.open(program=PROGRAM) as jobs:
            job = jobs.begin("big")
            part = job.begin("part")
            with self.assertRaises(bogrunsi.NotTaken) as full:
                while True:
                    part.add("x", 1)
            self.assertEqual(full.exception.kind, "limit")
            part.commit()
            job.commit()
        self.assertGreater(jobs.table["x"], 60000)

    def test_seventy_threads_on_one_key(self) -> None:
        with bogrunsi.open(program=PROGRAM) as jobs:
            holder = jobs.begin("holder")
            holder.add("hot", 1)

            def work(number: int) -> None:
                for attempt in jobs.tries(f"w{number}", 20):
                    with attempt as job:
                        job.add("hot", 1)

            threads = [threading.Thread(target=work, args=(number,), daemon=True) for number in range(70)]
            threading.Timer(1.0, holder.commit).start()
            self.joined(threads, 60)
        self.assertEqual(jobs.table["hot"], 71)

    def test_a_holder_needs_a_session(self) -> None:
        # All sessions wait for what one job holds, and it asks for more before it commits.
        with bogrunsi.open(program=PROGRAM) as jobs:
            holder = jobs.begin("holder")
            holder.add("hot", 1)
            other = jobs.begin("other")
            other.add("cold", 1)

            def work(number: int) -> None:
                for attempt in jobs.tries(f"w{number}", 30):
                    with attempt as job:
                        job.add("hot", 1)

            def go_on() -> None:
                for number in range(50):
                    holder.add(f"k{number}", 1)
                holder.add("cold", 1)
                holder.commit()

            threads = [threading.Thread(target=work, args=(number,), daemon=True) for number in range(100)]
            threads.append(threading.Timer(1.0, go_on))
            threads.append(threading.Timer(2.0, other.commit))
            self.joined(threads, 60)
        self.assertEqual(jobs.table["hot"], 101)
        self.assertEqual(jobs.table["cold"], 2)

    def test_more_than_a_thousand_time_outs(self) -> None:
        with bogrunsi.open(program=PROGRAM, timeout=0.0005) as jobs:
            one = jobs.begin("a")
            one.set("x", 1)
            for _ in range(1100):
                with self.assertRaises(bogrunsi.TimedOut), jobs.begin() as other:
                    other.set("x", 2)
            one.commit()
        self.assertEqual(jobs.table, {"x": 1})
