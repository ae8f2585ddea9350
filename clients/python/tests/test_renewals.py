"""Tests of runs that renew themselves, of what fits a run, of who may begin beside whom, and of what is to be seen in mid-run."""

from __future__ import annotations

import subprocess
import threading
import time
from pathlib import Path

import bogrunsi
from tests.support import PROGRAM, OverDatabase, needs_program


@needs_program
class Renewals(OverDatabase):
    """Over a database there is no end of requests."""

    def judged(self, path: str) -> bytes:
        return subprocess.run([PROGRAM, "check", path], capture_output=True, check=False).stdout

    def test_names_again_in_later_runs(self) -> None:
        report = str(Path(self.folder, "report"))
        with self.opened(report=report) as jobs:
            for count in range(3):
                run = jobs.runs
                with jobs.begin("night") as night:
                    night.add("nights", 1)
                while jobs.runs == run:
                    with jobs.begin() as job:
                        for _ in range(3000):
                            job.get("nights")
            self.assertEqual(jobs.table, {"nights": 3})
            runs = jobs.runs
        self.assertEqual(jobs.table, {"nights": 3})
        self.assertGreater(runs, 3)
        for path in [report, *(f"{report}.{number}" for number in range(2, runs + 1))]:
            self.assertEqual(self.judged(path), b"yes\n")
        self.assertIn("nights=2\n", Path(f"{report}.3").read_text())

    def test_transactions_that_end(self) -> None:
        with self.opened() as jobs, jobs.begin("a") as job:
            count = 0
            with self.assertRaises(bogrunsi.Full):
                while True:
                    with job.begin():
                        count += 1
            self.assertGreater(count, 16000)
            job.set("x", count)
        self.assertEqual(jobs.table, {"x": count})

    def test_keys_that_are_gone(self) -> None:
        # Keys that were only asked for, or were deleted, do not stay known: the run is renewed for new ones.
        with self.opened() as jobs:
            for number in range(9000):
                with jobs.begin() as job:
                    job.set(f"k{number}", 1)
                    job.delete(f"k{number}")
            self.assertGreater(jobs.runs, 2)

    def test_new_jobs_are_held_back_and_a_long_one_goes_on(self) -> None:
        with self.opened() as jobs:
            long = jobs.begin("long")
            stop = threading.Event()
            ends: list[str] = []

            def ticks() -> None:
                try:
                    while not stop.is_set():
                        with jobs.begin(timeout=30) as job:
                            for _ in range(2000):
                                job.get("y")
                except bogrunsi.Error as fault:
                    ends.append(repr(fault))

            threads = [threading.Thread(target=ticks) for _ in range(4)]
            for thread in threads:
                thread.start()
            while jobs.remaining["calls"] > 12000 and not ends:
                long.add("x", 1)
                time.sleep(0.001)
            long.commit()
            until = time.monotonic() + 30
            while jobs.runs == 1 and time.monotonic() < until:
                time.sleep(0.01)
            stop.set()
            for thread in threads:
                thread.join(30)
            self.assertEqual(ends, [])
            self.assertGreater(jobs.runs, 1)

    def test_two_jobs_of_one_thread_at_the_end_of_a_run(self) -> None:
        # The thread would wait for itself: it is told, or goes on in the same run.
        with self.opened() as jobs:
            one = jobs.begin("one")
            while jobs.remaining["calls"] > 10000:
                one.get("x")
            began = time.monotonic()
            with jobs.begin("two") as two:
                two.set("y", 1)
            self.assertRaises(bogrunsi.Full, jobs.begin, "three", calls=30000)
            one.set("x", 1)
            one.commit()
            with jobs.begin("three", calls=30000) as three:
                three.set("z", 1)
            self.assertLess(time.monotonic() - began, 20)
            self.assertEqual(jobs.runs, 2)
            self.assertEqual(jobs.table, {"x": 1, "y": 1, "z": 1})

    def test_what_fits_no_run_is_told_first(self) -> None:
        with self.opened() as jobs:
            self.assertRaises(bogrunsi.Full, jobs.begin, "big", calls=65536)
            self.assertNotIn("big", jobs.report)
            with jobs.begin("fits", calls=64000) as job:
                for _ in range(63990):
                    job.get("x")
                job.set("x", 1)
        self.assertEqual(jobs.table, {"x": 1})

    def test_a_job_that_fits_a_whole_run_is_tried_in_the_next(self) -> None:
        with self.opened() as jobs:
            with jobs.begin("first") as first:
                for _ in range(20000):
                    first.get("x")
            made = 0
            for attempt in jobs.tries("second", 3):
                with attempt as job:
                    made += 1
                    for _ in range(50000):
                        job.get("x")
                    job.set("x", 1)
            self.assertEqual(made, 2)
            self.assertEqual(jobs.runs, 2)
            self.assertEqual(jobs.table, {"x": 1})

    def test_in_memory_the_end_is_told(self) -> None:
        with bogrunsi.open(program=PROGRAM) as jobs:
            with self.assertRaises(bogrunsi.Full):
                while True:
                    with jobs.begin() as job:
                        for _ in range(3000):
                            job.get("x")
            with self.assertRaises(bogrunsi.Full):
                jobs.begin()


@needs_program
class Alone(OverDatabase):
    """A transaction beside which none begins."""

    def test_a_job(self) -> None:
        with self.opened() as jobs:
            first = jobs.begin("first")
            seen: list[str] = []

            def alone() -> None:
                with jobs.begin("alone", alone=True) as job:
                    seen.append(first.state)
                    time.sleep(0.3)
                    job.set("x", 1)
                    seen.append("alone")

            def later() -> None:
                with jobs.begin("later"):
                    seen.append("later")

            threads = [threading.Thread(target=alone), threading.Thread(target=later)]
            threads[0].start()
            time.sleep(0.2)
            threads[1].start()
            time.sleep(0.2)
            self.assertEqual(seen, [])
            with first.begin("part") as part:
                part.set("y", 1)
            first.commit()
            for thread in threads:
                thread.join(20)
            self.assertEqual(seen, ["committed", "alone", "later"])

    def test_contended_jobs_come_to_an_end(self) -> None:
        # Eight threads take two keys in either order. Each job commits within its tries.
        tries: list[int] = []

        def work(number: int) -> None:
            for count in range(40):
                keys = [f"k{(number + count) % 3}", f"k{(number + count + 1 + number % 2) % 3}"]
                for tried, attempt in enumerate(jobs.tries(times=8, pauses=bogrunsi.Pauses(alone_from=3))):
                    with attempt as job:
                        for key in keys:
                            job.add(key, 1)
                tries.append(tried)

        with self.opened() as jobs:
            threads = [threading.Thread(target=work, args=(number,)) for number in range(8)]
            for thread in threads:
                thread.start()
            for thread in threads:
                thread.join(120)
            self.assertEqual(sum(jobs.table.values()), 640)
            self.assertEqual(len(tries), 320)

    def test_contended_parts_come_to_an_end(self) -> None:
        def work(number: int) -> None:
            for count in range(20):
                for attempt in night.tries(f"t{number}x{count}", 8, pauses=bogrunsi.Pauses(alone_from=3)):
                    with attempt as part:
                        part.add(f"k{(number + count) % 2}", 1)
                        part.add(f"k{(number + count + 1) % 2}", 1)

        with self.opened() as jobs, jobs.begin("night") as night:
            threads = [threading.Thread(target=work, args=(number,)) for number in range(6)]
            for thread in threads:
                thread.start()
            for thread in threads:
                thread.join(120)
        self.assertEqual(jobs.table, {"k0": 120, "k1": 120})


@needs_program
class Seen(OverDatabase):
    """What the client has seen committed."""

    def test_the_table_in_mid_run(self) -> None:
        with self.opened() as jobs:
            with jobs.begin("a") as job:
                job.set("g.a", 1)
                job.set("g.b", 2)
                job.set("other", 3)
                with job.begin("undone") as part:
                    part.set("g.c", 9)
                    part.undo()
                with job.begin("kept") as part:
                    part.delete("g.a")
                    part.add("g.d", 4)
                self.assertEqual(jobs.table, {})
            self.assertEqual(jobs.table, {"g.b": 2, "g.d": 4, "other": 3})
            self.assertEqual(jobs.keys("g"), ["g.b", "g.d"])
            seen = jobs.table
        self.assertEqual(jobs.table, seen)

    def test_names_and_states(self) -> None:
        with self.opened() as jobs:
            job = jobs.begin("a")
            part = job.begin("p")
            self.assertEqual(repr(part), "<bogrunsi.Transaction a/p live>")
            job.undo()
            self.assertEqual([job.state, part.state], ["undone", "undone"])
            self.assertIn("0 transactions live", repr(jobs))

    def test_the_report_as_it_grows(self) -> None:
        path = Path(self.folder, "report")
        with self.opened(report=str(path)) as jobs:
            with jobs.begin("a") as job:
                job.set("x", 1)
                self.assertEqual(path.read_text(), jobs.report)
        self.assertEqual(path.read_text(), jobs.report)
        self.assertTrue(jobs.report.endswith("table\nx=1\nend\n"))
