"""Tests of forks, Control-C, databases that are held, and managers and transactions that are dropped."""

from __future__ import annotations

import gc
import os
import random
import signal
import subprocess
import sys
import threading
import time
from pathlib import Path

import bogrunsi
from tests.support import FOLDER, PROGRAM, OverDatabase, needs_program


@needs_program
class Processes(OverDatabase):
    """Forks, Control-C, and programs that are left or held."""

    def test_a_child_is_refused_and_the_parent_has_its_own(self) -> None:
        jobs = self.opened()
        job = jobs.begin("t")
        job.set("mine", 1)
        job.set("yours", 2)
        source, to = os.pipe()
        child = os.fork()
        if child == 0:
            told = b"nothing"
            try:
                job.get("yours")
            except bogrunsi.Forked:
                told = b"forked"
            try:
                jobs.close()
                with jobs.begin("u"):
                    pass
            except bogrunsi.Forked:
                told += b" twice"
            os.write(to, told)
            time.sleep(30)
            os._exit(0)
        try:
            self.assertEqual(os.read(source, 99), b"forked twice")
            self.assertEqual([job.get("mine"), job.get("yours")], [1, 2])
            job.commit()
            # The child lives, and holds nothing that the program waits for.
            began = time.monotonic()
            jobs.close()
            self.assertLess(time.monotonic() - began, 10)
        finally:
            os.kill(child, signal.SIGKILL)
            os.waitpid(child, 0)
            os.close(source)
            os.close(to)

    def test_a_fork_while_other_threads_call(self) -> None:
        # They hold locks that nobody lets go of in the child.
        with self.opened() as jobs:
            job = jobs.begin("t")
            stop = threading.Event()

            def work() -> None:
                part = job.begin()
                while not stop.is_set():
                    part.get("x")
                part.commit()

            threads = [threading.Thread(target=work) for _ in range(3)]
            for thread in threads:
                thread.start()
            for _ in range(20):
                child = os.fork()
                if child == 0:
                    signal.alarm(20)
                    try:
                        job.get("x")
                    except bogrunsi.Forked:
                        os._exit(7)
                    os._exit(1)
                self.assertEqual(os.waitstatus_to_exitcode(os.waitpid(child, 0)[1]), 7)
            stop.set()
            for thread in threads:
                thread.join(20)
            job.commit()

    def test_an_interrupt_is_not_lost_where_transactions_are_dropped(self) -> None:
        class Stop(Exception):
            pass

        def handler(number: int, frame: object) -> None:
            raise Stop

        before = signal.signal(signal.SIGALRM, handler)
        lost: list[object] = []
        hook = sys.unraisablehook
        sys.unraisablehook = lost.append
        try:
            with self.opened() as jobs, jobs.begin("t") as job:
                for _ in range(300):
                    with self.assertRaises(Stop):
                        signal.setitimer(signal.ITIMER_REAL, 0.001)
                        for _ in range(100000):
                            with job.begin():
                                pass
        finally:
            signal.setitimer(signal.ITIMER_REAL, 0)
            signal.signal(signal.SIGALRM, before)
            sys.unraisablehook = hook
        self.assertEqual(lost, [])

    def test_control_c_leaves_the_program(self) -> None:
        script = (
            "import bogrunsi, sys\n"
            "with bogrunsi.open(sys.argv[1], program=sys.argv[2]) as jobs:\n"
            "    try:\n"
            "        with jobs.begin('night') as night:\n"
            "            for count in range(10**9):\n"
            "                with night.begin() as part:\n"
            "                    part.set('x', count)\n"
            "                if count == 0:\n"
            "                    print('going', flush=True)\n"
            "                if count > 3000:\n"
            "                    import time; time.sleep(1)\n"
            "    except KeyboardInterrupt:\n"
            "        with jobs.begin('note') as note:\n"
            "            note.set('stopped', 1)\n"
            "assert jobs.report.endswith('end\\n')\n"
            "print(jobs.table)\n"
        )
        chance = random.Random(5)
        for _ in range(5):
            process = subprocess.Popen(
                [sys.executable, "-c", script, self.path, PROGRAM],
                cwd=FOLDER,
                stdout=subprocess.PIPE,
                stderr=subprocess.STDOUT,
                text=True,
                start_new_session=True,
            )
            assert process.stdout is not None
            self.assertEqual(process.stdout.readline(), "going\n")
            time.sleep(chance.uniform(0.0, 0.2))
            os.killpg(process.pid, signal.SIGINT)
            told, _ = process.communicate(timeout=20)
            self.assertEqual(told, "{'stopped': 1}\n")

    def test_started_again_at_once_after_a_kill(self) -> None:
        script = (
            "import bogrunsi, sys, time\n"
            "jobs = bogrunsi.open(sys.argv[1], program=sys.argv[2])\n"
            "with jobs.begin('a') as job:\n"
            "    job.add('x', 1)\n"
            "print('stored', flush=True)\n"
            "time.sleep(60)\n"
        )
        for count in range(1, 6):
            process = subprocess.Popen([sys.executable, "-c", script, self.path, PROGRAM], cwd=FOLDER, stdout=subprocess.PIPE)
            assert process.stdout is not None
            process.stdout.readline()
            process.kill()
            with self.opened(wait=10.0) as jobs:
                self.assertEqual(jobs.opening, {"x": count})
            process.wait()
            process.stdout.close()

    def test_causes_of_a_database_that_does_not_open(self) -> None:
        folder = Path(self.folder)
        (folder / "text").write_text("this is no database, and long enough to be looked at")
        Path(self.path).touch()
        os.link(self.path, folder / "second")
        for path, told in (
            (str(folder), "is no file"),
            (str(folder / "none" / "a.db"), "no folder"),
            (str(folder / "text"), "no SQLite database"),
            (self.path, "more than one name"),
        ):
            began = time.monotonic()
            with self.assertRaisesRegex(bogrunsi.Failed, told):
                bogrunsi.open(path, program=PROGRAM, wait=30.0)
            self.assertLess(time.monotonic() - began, 10)

    def test_a_database_that_is_held(self) -> None:
        with self.opened() as first:
            with self.assertRaisesRegex(bogrunsi.Failed, "another program may hold"):
                self.opened(wait=0.3)
            threading.Timer(0.5, first.close).start()
            with self.opened(wait=20.0) as second:
                self.assertEqual(second.opening, {})

    def test_a_manager_that_is_dropped(self) -> None:
        def dropped() -> int:
            jobs = self.opened()
            with jobs.begin("a") as job:
                job.set("x", 1)
            jobs.begin("b")
            return jobs._run._pipe.pid

        number = dropped()
        gc.collect()
        self.assertFalse(os.path.exists(f"/proc/{number}"))
        with self.opened(wait=0.0) as jobs:
            self.assertEqual(jobs.opening, {"x": 1})

    def test_a_transaction_that_is_dropped(self) -> None:
        with self.opened() as jobs:
            jobs.begin("lost").set("x", 1)
            gc.collect()
            with jobs.begin("next") as job:
                job.set("x", 2)
        self.assertEqual(jobs.table, {"x": 2})
