"""Tests of what the client makes of the lines of a program, with a stand-in for it."""

from __future__ import annotations

import sys
import threading
import unittest

import bogrunsi
from tests.support import stand_in, until_it_waits


class Replies(unittest.TestCase):
    """What calls return and raise for each reply."""

    def test_values(self) -> None:
        replies = {
            "get a x": ["= value -5"],
            "get a y": ["= none"],
            "add a x 3": ["= new -2"],
            "sum a g": ["= value 9223372036854775807"],
        }
        with stand_in(replies) as jobs, jobs.begin("a") as job:
            self.assertEqual(job.get("x"), -5)
            self.assertIsNone(job.get("y"))
            self.assertEqual(job.add("x", 3), -2)
            self.assertEqual(job.sum("g"), 2**63 - 1)
            job.set("x", 1)
            job.delete("x")

    def test_refusals(self) -> None:
        replies = {
            "begin b": ["= refused used"],
            "add a x 1": ["= overflow"],
            "get a x": ["= orphan a"],
            "get a y": ["= stuck"],
            "get a Z": ["! key"],
            "set a x 1": ["! limit"],
        }
        with stand_in(replies) as jobs:
            job = jobs.begin("a")
            with self.assertRaises(bogrunsi.Refused) as refused:
                jobs.begin("b")
            self.assertEqual(refused.exception.cause, "used")
            self.assertRaises(bogrunsi.Overflow, job.add, "x", 1)
            with self.assertRaises(bogrunsi.Undone) as undone:
                job.get("x")
            self.assertEqual(undone.exception.name, "a")
            self.assertRaises(bogrunsi.Stuck, job.get, "y")
            with self.assertRaises(bogrunsi.NotTaken) as not_taken:
                job.get("Z")
            self.assertEqual(not_taken.exception.kind, "key")
            with self.assertRaises(bogrunsi.NotTaken) as not_taken:
                job.set("x", 1)
            self.assertEqual(not_taken.exception.kind, "limit")

    def test_words_that_would_make_other_requests(self) -> None:
        with stand_in({}) as jobs:
            job = jobs.begin("a")
            for key in ("", "x y", "x\ns1 abort a", "x\r"):
                self.assertRaises(ValueError, job.get, key)
            self.assertRaises(ValueError, job.set, "x", 2**63)
            self.assertRaises(ValueError, jobs.begin, "a b")
            for timeout in (-1.0, float("nan")):
                self.assertRaises(ValueError, jobs.begin, "b", timeout=timeout)

    def test_a_line_that_waits(self) -> None:
        replies = {"get a x": ["= waits"], "commit b": ["= ok", "* victim c", "= get a x: value 7"]}
        with stand_in(replies) as jobs:
            one, other = jobs.begin("a"), jobs.begin("b")
            got: list[int | None] = []
            thread = threading.Thread(target=lambda: got.append(one.get("x")))
            thread.start()
            until_it_waits(jobs)
            other.commit()
            thread.join()
            self.assertEqual(got, [7])

    def test_a_line_that_waits_too_long(self) -> None:
        replies = {"get a x": ["= waits"], "abort a": ["= ok", "= get a x: orphan a"]}
        with stand_in(replies, timeout=0.05) as jobs:
            job = jobs.begin("a")
            with self.assertRaises(bogrunsi.TimedOut) as late:
                job.get("x")
            self.assertEqual(late.exception.name, "a")
            self.assertIn("s2 1 abort a -> ok\n", jobs.report)

    def test_an_answer_that_comes_as_the_time_is_up(self) -> None:
        replies = {"get a x": ["= waits"], "abort a": ["= get a x: value 1", "= ok"]}
        with stand_in(replies, timeout=0.05) as jobs:
            self.assertRaises(bogrunsi.TimedOut, jobs.begin("a").get, "x")


class Blocks(unittest.TestCase):
    """What becomes of a transaction at the end of its block."""

    def test_it_commits(self) -> None:
        with stand_in({}) as jobs:
            with jobs.begin("a") as job, job.begin("p") as part:
                part.set("x", 1)
            texts = [line.split(" -> ")[0] for line in jobs.report.splitlines()[1:]]
        self.assertEqual(texts, ["s1 1 begin a", "s1 2 begin a/p", "s1 3 set a/p x 1", "s1 4 commit a/p", "s1 5 commit a"])

    def test_it_is_undone(self) -> None:
        with stand_in({}) as jobs:
            with self.assertRaises(KeyError), jobs.begin("a"):
                raise KeyError
            self.assertTrue(jobs.report.endswith("s1 2 abort a -> ok\n"))

    def test_it_is_undone_where_its_commit_is_refused(self) -> None:
        with stand_in({"commit a": ["= refused store"]}) as jobs:
            with self.assertRaises(bogrunsi.Refused), jobs.begin("a"):
                pass
            self.assertTrue(jobs.report.endswith("s1 3 abort a -> ok\n"))

    def test_it_has_ended_before(self) -> None:
        with stand_in({}) as jobs:
            with jobs.begin("a") as job:
                job.undo()
            self.assertTrue(jobs.report.endswith("s1 2 abort a -> ok\n"))


class Tries(unittest.TestCase):
    """Which parts are begun again."""

    def tried(self, fault: str = "", *, times: int = 3, fails: type[Exception] | None = None, at: str = "set") -> list[str]:
        """The names of the parts that were begun, each of which sets a key. The first one is undone by the program's reply, where one
        is given, or by an exception; with `times` below 3 all are."""
        begun: list[str] = []
        with stand_in({}, undoes=(at, fault, times < 3)) as jobs:
            job = jobs.begin("a")
            for attempt in job.tries("p", times, ConnectionError):
                with attempt as part:
                    begun.append(part.name)
                    part.set("x", 1)
                    if fails is not None and len(begun) == 1:
                        raise fails
        return begun

    def is_again(self, begun: list[str]) -> None:
        """The first part has its own name, and the second another below the same job."""
        self.assertEqual(begun[0], "a/p")
        self.assertRegex(begun[1], "a/pz[0-9a-f]{9}$")
        self.assertEqual(len(begun), 2)

    def test_one_is_enough(self) -> None:
        self.assertEqual(self.tried(), ["a/p"])

    def test_its_own_part_was_undone(self) -> None:
        self.is_again(self.tried("part"))

    def test_it_was_undone_at_its_commit(self) -> None:
        self.is_again(self.tried("part", at="commit"))

    def test_a_named_exception(self) -> None:
        self.is_again(self.tried(fails=ConnectionResetError))

    def test_another_exception(self) -> None:
        self.assertRaises(KeyError, self.tried, fails=KeyError)

    def test_the_job_was_undone(self) -> None:
        with self.assertRaises(bogrunsi.Undone) as undone:
            self.tried("job")
        self.assertEqual(undone.exception.name, "a")

    def test_the_last_one(self) -> None:
        with self.assertRaises(bogrunsi.Undone) as undone:
            self.tried("part", times=2)
        self.assertRegex(undone.exception.name, "a/pz[0-9a-f]{9}$")

    def test_names_are_looked_at_before_the_first_try(self) -> None:
        with stand_in({}) as jobs:
            job = jobs.begin("a")
            for label in ("", "seventeen1sevente", "a/b", "A"):
                self.assertRaises(ValueError, job.tries, label, 3)
            self.assertRaises(ValueError, job.tries, "p", 0)
            self.assertEqual(jobs.report.count("begin"), 1)

    def test_names_of_sixteen_bytes_and_names_alike(self) -> None:
        with stand_in({}) as jobs:
            job = jobs.begin("a")
            names: list[str] = []
            for label in ("file1", "file12", "sixteen1sixteen2", "file123"):
                for number, attempt in enumerate(job.tries(label, 3, KeyError)):
                    with attempt as part:
                        names.append(part.name)
                        if number < 2:
                            raise KeyError
            self.assertEqual(len(set(names)), 12)
            self.assertTrue(all(len(name) <= len("a/") + 16 for name in names))


class Runs(unittest.TestCase):
    """The opening and the end of a run."""

    def test_rows(self) -> None:
        with stand_in({}, opening=("open", "a=-1", "b.c=20"), closing=("table", "a=5", "end")) as jobs:
            self.assertEqual(jobs.opening, {"a": -1, "b.c": 20})
            self.assertEqual(jobs.table, {"a": -1, "b.c": 20})
        self.assertEqual(jobs.table, {"a": 5})
        self.assertEqual(jobs.report, "open\na=-1\nb.c=20\ntable\na=5\nend\n")
        self.assertRaises(bogrunsi.Failed, jobs.begin, "a")
        jobs.close()

    def test_a_program_without_live_sessions(self) -> None:
        program = "import sys; print('error: unrecognized subcommand', file=sys.stderr); sys.exit(2)"
        with self.assertRaisesRegex(bogrunsi.Failed, "serves no live sessions: error: unrecognized subcommand"):
            bogrunsi.open(program=[sys.executable, "-c", program])

    def test_no_program(self) -> None:
        self.assertRaisesRegex(bogrunsi.Failed, "cannot be started", bogrunsi.open, program="/no/such/program")

    def test_a_database_that_cannot_be_opened(self) -> None:
        program = "import sys; print('tx: cannot open database', file=sys.stderr); sys.exit(1)"
        with self.assertRaisesRegex(bogrunsi.Failed, "status 1: tx: cannot open database"):
            bogrunsi.open("jobs.db", program=[sys.executable, "-c", program])

    def test_a_program_that_dies(self) -> None:
        jobs = stand_in({"get a x": ["= waits"], "get b x": ["exit"]})
        one, other = jobs.begin("a"), jobs.begin("b")
        raised: list[BaseException] = []

        def waiting() -> None:
            try:
                one.get("x")
            except bogrunsi.Failed as fault:
                raised.append(fault)

        thread = threading.Thread(target=waiting)
        thread.start()
        until_it_waits(jobs)
        self.assertRaises(bogrunsi.Failed, other.get, "x")
        thread.join()
        self.assertEqual(len(raised), 1)
        self.assertRaises(bogrunsi.Failed, jobs.close)

    def test_a_program_that_dies_at_a_request(self) -> None:
        for verb in ("get", "set", "del", "add"):
            text = f"{verb} a x 1" if verb in ("set", "add") else f"{verb} a x"
            jobs = stand_in({text: ["exit"]})
            job = jobs.begin("a")
            calls = {"get": lambda: job.get("x"), "set": lambda: job.set("x", 1), "del": lambda: job.delete("x"), "add": lambda: job.add("x", 1)}
            self.assertRaises(bogrunsi.Failed, calls[verb])
            self.assertRaises(bogrunsi.Failed, jobs.close)

    def test_a_report_that_could_not_be_written_whole(self) -> None:
        jobs = stand_in({}, closing=("table", "tx: cannot write"), status=1)
        self.assertRaisesRegex(bogrunsi.Failed, "cannot write", jobs.close)

    def test_many_threads(self) -> None:
        with stand_in({}) as jobs:

            def work(number: int) -> None:
                with jobs.begin(f"j{number}") as job:
                    for value in range(20):
                        job.set("x", value)

            threads = [threading.Thread(target=work, args=(number,)) for number in range(16)]
            for thread in threads:
                thread.start()
            for thread in threads:
                thread.join()
            self.assertEqual(jobs.report.count(" -> ok\n"), 16 * 22)

    def test_a_session_that_is_full(self) -> None:
        with stand_in({}) as jobs:
            job = jobs.begin("a")
            for _ in range(1024):
                job.set("x", 1)
            self.assertIn("s1 1024 set a x 1 -> ok\ns2 1 set a x 1 -> ok\n", jobs.report)
