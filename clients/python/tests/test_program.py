"""Tests of what the program answers, where the variable BOGRUNSI_TX has the path of one."""

from __future__ import annotations

import subprocess
import sys
import threading
import time
from pathlib import Path

import bogrunsi
from tests.support import FOLDER, PROGRAM, OverDatabase, needs_program, until_it_waits


@needs_program
class Program(OverDatabase):
    """What the program answers."""

    def test_an_import_of_which_a_part_fails_once(self) -> None:
        fails = {"orders"}
        with self.opened() as jobs, jobs.begin("night") as night:
            for table in ("orders", "items", "clients", "stock"):
                for attempt in night.tries(table, 3, ConnectionError):
                    with attempt as part:
                        part.add(f"rows.{table}", 10)
                        if table in fails:
                            fails.remove(table)
                            raise ConnectionError
            self.assertEqual(night.sum("rows"), 40)
        with self.opened() as jobs:
            self.assertEqual(sum(jobs.opening.values()), 40)

    def test_two_threads_in_a_deadlock(self) -> None:
        both_have_one = threading.Barrier(2)

        def move(job: bogrunsi.Transaction, name: str, source: str, target: str) -> None:
            for number, attempt in enumerate(job.tries(name, 3)):
                with attempt as part:
                    part.add(source, -5)
                    if number == 0:
                        both_have_one.wait()
                    part.add(target, 5)

        with self.opened() as jobs, jobs.begin("job") as job:
            job.set("money.a", 100)
            job.set("money.b", 100)
            threads = [
                threading.Thread(target=move, args=(job, "there", "money.a", "money.b")),
                threading.Thread(target=move, args=(job, "back", "money.b", "money.a")),
            ]
            for thread in threads:
                thread.start()
            for thread in threads:
                thread.join()
            self.assertEqual(job.sum("money"), 200)
        self.assertEqual(jobs.table, {"money.a": 100, "money.b": 100})
        self.assertEqual(jobs.report.count("* victim "), 1)

    def test_a_line_that_waits_too_long(self) -> None:
        with self.opened(timeout=0.2) as jobs:
            with jobs.begin("one") as one:
                one.set("x", 1)
                other = jobs.begin("other")
                with self.assertRaises(bogrunsi.TimedOut):
                    other.get("x")
                self.assertRaises(bogrunsi.Undone, other.get, "y")
        self.assertEqual(jobs.table, {"x": 1})

    def test_a_client_that_dies(self) -> None:
        # It is killed within a part. The program sees the end of its input, and ends by itself.
        script = (
            "import bogrunsi, os, sys\n"
            "jobs = bogrunsi.open(sys.argv[1], program=sys.argv[2])\n"
            "with jobs.begin('a') as job:\n"
            "    job.set('x', 1)\n"
            "part = jobs.begin('b').begin('part')\n"
            "part.set('y', 2)\n"
            "os.kill(os.getpid(), 9)\n"
        )
        words = [sys.executable, "-c", script, self.path, PROGRAM]
        died = subprocess.run(words, cwd=FOLDER, check=False)
        self.assertEqual(died.returncode, -9)
        for _ in range(100):
            # Another run has the database only once this one has ended.
            try:
                with self.opened() as jobs:
                    self.assertEqual(jobs.opening, {"x": 1})
                return
            except bogrunsi.Failed:
                time.sleep(0.1)
        self.fail("the program did not end")

    def test_a_program_that_is_killed(self) -> None:
        jobs = self.opened()
        with jobs.begin("a") as job:
            job.set("x", 1)
        one, other = jobs.begin("b"), jobs.begin("c")
        one.set("x", 2)
        raised: list[BaseException] = []

        def waiting() -> None:
            try:
                other.get("x")
            except bogrunsi.Failed as fault:
                raised.append(fault)

        thread = threading.Thread(target=waiting)
        thread.start()
        until_it_waits(jobs)
        jobs._run._pipe.kill()
        thread.join()
        self.assertRegex(str(raised[0]), "the program ended with status -9")
        self.assertRaisesRegex(bogrunsi.Failed, "status -9", one.commit)
        self.assertRaisesRegex(bogrunsi.Failed, "status -9", jobs.close)
        with self.opened() as jobs:
            self.assertEqual(jobs.opening, {"x": 1})

    def test_rubbish(self) -> None:
        # Each line has a line that comes back, and costs those beside it nothing.
        rubbish = [b"", b" ", b"a", b"A begin x", b"a  begin x", b"a begin x ", b"a after x done", b"a begin \xff\0", b"x" * 9000]
        lines = [b"a begin job", *rubbish, b"a set job x 1", *rubbish, b"a commit job"]
        sent = b"".join(line + b"\n" for line in lines) + b"a begin cut"
        ran = subprocess.run([PROGRAM, "live"], input=sent, capture_output=True, check=True)
        self.assertEqual(
            ran.stdout, b"open\na 1 begin job -> ok\na 2 set job x 1 -> ok\na 3 commit job -> ok\ntable\nx=1\nend\n"
        )
        told = ran.stderr.decode().splitlines()
        kinds = ["empty", "label", "shape", "label", "word", "shape", "word", "name", "long"]
        numbers = [*range(2, 11), *range(12, 21)]
        wanted = [f"tx: line {number}: {kind}" for number, kind in zip(numbers, kinds * 2, strict=True)]
        self.assertEqual(told, [*wanted, "tx: line 22: end"])

    def test_sixteen_threads(self) -> None:
        # Each job counts one up in two of sixteen keys, each in a part that is tried again where it was undone.
        jobs_each = 100

        def work(number: int) -> None:
            for count in range(jobs_each):
                while True:
                    name = f"t{number}x{count}a{len(made[number])}"
                    made[number].append(name)
                    try:
                        with jobs.begin(name) as job:
                            for part, key in (("one", number % 4), ("two", 4 + (number + count) % 12)):
                                for attempt in job.tries(part, 3):
                                    with attempt as counted:
                                        counted.add(f"sum.k{key}", 1)
                        break
                    except bogrunsi.Undone:
                        pass

        made: list[list[str]] = [[] for _ in range(16)]
        with self.opened() as jobs:
            threads = [threading.Thread(target=work, args=(number,)) for number in range(16)]
            for thread in threads:
                thread.start()
            for thread in threads:
                thread.join()
        self.assertEqual(sum(jobs.table.values()), 2 * 16 * jobs_each)
        self.assertGreater(jobs.report.count(" -> ") - jobs.report.count(" -> waits"), 10000)
        report = Path(self.path).with_suffix(".report")
        report.write_text(jobs.report)
        judged = subprocess.run([PROGRAM, "check", str(report)], capture_output=True, check=False)
        self.assertEqual(judged.stdout, b"yes\n")

    def test_sixty_four_sessions(self) -> None:
        # Sixteen writers send the lines of four sessions each, twenty thousand in all: adds to keys of their own, and to one that
        # all of them share, one job after another.
        rounds = 39
        process = subprocess.Popen([PROGRAM, "live", "--db", self.path], stdin=subprocess.PIPE, stdout=subprocess.PIPE)
        assert process.stdin is not None and process.stdout is not None
        requests = process.stdin
        answered = {f"s{number}": threading.Semaphore(0) for number in range(64)}
        entries: list[bytes] = []

        def read() -> None:
            assert process.stdout is not None
            for line in process.stdout:
                entries.append(line)
                if b" -> " in line and not line.endswith(b" -> waits\n"):
                    answered[line.split(b" ")[0].decode()].release()

        writing = threading.Lock()

        def work(number: int) -> None:
            labels = [f"s{number * 4 + place}" for place in range(4)]
            for count in range(rounds):
                for label in labels:
                    name = f"{label}x{count}"
                    texts = [f"begin {name}", f"begin {name}/p", f"add {name}/p own.{label} 1", f"add {name}/p own.{label} 1"]
                    texts += [f"commit {name}/p", f"add {name} all 1", f"get {name} all", f"commit {name}"]
                    for text in texts:
                        with writing:
                            requests.write(f"{label} {text}\n".encode())
                            requests.flush()
                        answered[label].acquire()

        reader = threading.Thread(target=read)
        threads = [threading.Thread(target=work, args=(number,)) for number in range(16)]
        for thread in (reader, *threads):
            thread.start()
        for thread in threads:
            thread.join()
        process.stdin.close()
        reader.join()
        process.stdout.close()
        self.assertEqual(process.wait(), 0)
        rows = {row.split(b"=")[0]: int(row.split(b"=")[1]) for row in entries[entries.index(b"table\n") + 1 : -1]}
        self.assertEqual(rows[b"all"], 64 * rounds)
        self.assertEqual(sum(rows.values()), 64 * rounds * 3)
        self.assertGreaterEqual(sum(b" -> " in line and not line.endswith(b"waits\n") for line in entries), 19968)

    def test_what_is_not_taken(self) -> None:
        with self.opened() as jobs, jobs.begin("a") as job:
            with self.assertRaises(bogrunsi.NotTaken) as not_taken:
                job.get("X")
            self.assertEqual(not_taken.exception.kind, "key")
            with self.assertRaises(bogrunsi.NotTaken) as not_taken:
                job.begin("B")
            self.assertEqual(not_taken.exception.kind, "name")
            job.set("x", 1)
        self.assertEqual(jobs.table, {"x": 1})
