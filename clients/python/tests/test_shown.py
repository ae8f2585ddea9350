"""Tests of the tree of a run: what became of each transaction, as `tx show` prints it."""

from __future__ import annotations

import subprocess
import sys
import tempfile
import threading
import unittest
from pathlib import Path

import bogrunsi
from bogrunsi.shown import tree_of
from tests.support import FOLDER, PROGRAM, needs_program, stand_in, until_it_waits
from tests.test_server import Served

EXAMPLES = FOLDER.parent.parent / "examples"
SUMMARY = """\
jobs: committed {}, undone {}
parts: committed {}, undone {}, tried again {}
victims: {}
refused: unknown {}, used {}, no-parent {}, orphan {}, done {}, children {}, waiting {}, full {}, store {}
stuck: {}
waits: {}
"""


def summary(*counts: int) -> str:
    """The last lines, with these counts and zeros behind them."""
    return SUMMARY.format(*counts, *[0] * (17 - len(counts)))


class Trees(unittest.TestCase):
    """What the entries of a report come to."""

    def test_the_examples(self) -> None:
        reports = sorted(EXAMPLES.glob("*.report"))
        self.assertGreater(len(reports), 14)
        for report in reports:
            with self.subTest(report.name):
                self.assertEqual(str(tree_of(report.read_text())), report.with_suffix(".tree").read_text())

    def test_nothing_has_begun(self) -> None:
        for report in ("", "open\n", "open\nx=1\ntable\nx=1\nend\n"):
            self.assertEqual(str(tree_of(report)), summary())

    def test_a_run_under_way(self) -> None:
        replies = {
            "get a/q x": ["= waits"],
            "commit b": ["= ok", "= get a/q x: value 7"],
            "set a/t x 1": ["= ok", "* victim a/t"],
        }
        with stand_in(replies) as jobs:
            one, other = jobs.begin("a"), jobs.begin("b")
            above = one.begin("p")
            above.begin("deep").commit()
            part = one.begin("q")
            thread = threading.Thread(target=part.get, args=("x",))
            thread.start()
            until_it_waits(jobs)
            other.set("y", 1)
            other.commit()
            thread.join()
            victim = one.begin("t")
            victim.set("x", 1)
            one.begin("u").undo()
            under_way = jobs.tree()
            one.undo()
            behind = jobs.tree()
        lines = [
            "a: live; accesses 0; waits 0 over 0 entries",
            "  p: live; accesses 0; waits 0 over 0 entries",
            "    deep: committed; accesses 0; waits 0 over 0 entries",
            "  q: live; accesses 1; waits 1 over 3 entries",
            "  t: undone as a victim; accesses 1; waits 0 over 0 entries",
            "  u: undone on request; accesses 0; waits 0 over 0 entries",
            "b: committed; accesses 1; waits 0 over 0 entries",
        ]
        self.assertEqual(str(under_way), "\n".join(lines) + "\n" + summary(1, 0, 1, 2, 1, 1, *[0] * 10, 1))
        self.assertEqual([shown.outcome for shown in behind.transactions], [
            "undone on request",
            "undone with its parent",
            "undone after its commit",
            "undone with its parent",
            "undone as a victim",
            "undone on request",
            "committed",
        ])
        self.assertEqual(str(behind.summary), summary(1, 1, 0, 5, 1, 1, *[0] * 10, 1))
        self.assertEqual([shown.name for shown in behind.transactions], ["a", "a/p", "a/p/deep", "a/q", "a/t", "a/u", "b"])
        # The part is undone by the entry that undoes the job.
        self.assertEqual(behind.transactions[3].ended, behind.transactions[0].ended)

    def test_the_order_is_that_of_beginning_below_each_parent(self) -> None:
        names = ["b", "a", "a/z", "b/y", "a/z/k", "a/c", "b/x"]
        report = "open\n" + "".join(f"s {n} begin {name} -> ok\n" for n, name in enumerate(names, 1))
        self.assertEqual([shown.name for shown in tree_of(report).transactions], ["b", "b/y", "b/x", "a", "a/z", "a/z/k", "a/c"])

    def test_a_wait_that_was_not_answered(self) -> None:
        report = "open\ns 1 begin a -> ok\nt 1 begin b -> ok\ns 2 set a x 1 -> ok\nt 2 get b x -> waits\ns 3 get a x -> value 1\n"
        tree = tree_of(report)
        self.assertEqual((tree.transactions[1].waits, tree.transactions[1].waited, tree.summary.waits), (0, 0, 1))
        # It is answered by the next entry of its own session, whatever that is.
        tree = tree_of(report + "s 4 commit a -> ok\nt 2 get b x -> stuck\n")
        self.assertEqual((tree.transactions[1].waits, tree.transactions[1].waited, tree.summary.stuck), (1, 3, 1))

    def test_what_was_tried_again(self) -> None:
        # The first was undone before the second began, and the second after the third had begun. The fourth has nothing behind it.
        lines = ["begin a", "begin a/p1", "abort a/p1", "begin a/p2", "begin a/p3", "abort a/p2", "abort a/p3", "begin a/p4", "abort a/p4"]
        report = "open\n" + "".join(f"s {n} {line} -> ok\n" for n, line in enumerate(lines, 1))
        self.assertEqual(tree_of(report).summary.parts_tried_again, 2)
        # A job is none of the parts.
        self.assertEqual(tree_of(report.replace("a/", "")).summary.parts_tried_again, 0)

    def test_refusals_by_cause(self) -> None:
        causes = ["unknown", "used", "no-parent", "done", "children", "waiting", "full", "store"]
        answers = [f"refused {cause}" for cause in causes] + ["orphan a", "overflow"]
        report = "open\ns 1 begin a -> ok\n" + "".join(f"s {n} add a x 1 -> {answer}\n" for n, answer in enumerate(answers, 2))
        tree = tree_of(report)
        self.assertEqual(tree.summary.refused, dict.fromkeys([*causes, "orphan"], 1))
        # A sum that does not fit is an answer.
        self.assertEqual(tree.transactions[0].accesses, 1)


    def test_whether_all_was_done(self) -> None:
        done = ["begin a -> ok", "begin a/p -> ok", "set a/p x 1 -> ok", "commit a/p -> ok", "commit a -> ok"]
        spoilt = [
            done[:4],
            [*done[:3], "abort a/p -> ok", done[4]],
            [*done[:4], "abort a -> ok"],
            [*done, "get a x -> refused done"],
            [*done[:3], "get a y -> waits", "get a y -> stuck", *done[3:]],
            [*done, "begin b -> ok", "abort b -> ok", "get b x -> orphan b"],
        ]
        nothing: list[str] = []
        for lines in [nothing, done, *spoilt]:
            report = "open\n" + "".join(f"s {n} {line}\n" for n, line in enumerate(lines, 1))
            self.assertEqual(tree_of(report).all_done, lines not in spoilt, lines)


class Commands(unittest.TestCase):
    """`python3 -m bogrunsi show` and `draw`."""

    def command(self, *words: str) -> tuple[int, bytes, bytes]:
        ran = subprocess.run([sys.executable, "-m", "bogrunsi", *words], cwd=FOLDER, capture_output=True, check=False)
        return ran.returncode, ran.stdout, ran.stderr

    def test_words_output_and_status_are_passed_on(self) -> None:
        with tempfile.TemporaryDirectory() as folder:
            program = Path(folder, "program")
            program.write_text('#!/bin/sh\necho "$*"\necho told >&2\nexit 7\n')
            program.chmod(0o755)
            at = f"--program={program}"
            self.assertEqual(self.command("show", at, "a.report"), (7, b"show a.report\n", b"told\n"))
            self.assertEqual(
                self.command("show", at, "--strict", "a.report", "--undone"), (7, b"show a.report --undone --strict\n", b"told\n")
            )
            self.assertEqual(self.command("show", "--jobs", "a.report", at)[1], b"show a.report --jobs\n")
            self.assertEqual(self.command("draw", at, "a.report"), (7, b"draw a.report\n", b"told\n"))
            self.assertEqual(self.command("draw", at, "a.report", "--strict")[:2], (2, b""))

    def test_no_program(self) -> None:
        status, output, told = self.command("draw", "--program", "/no/such/program", "a.report")
        self.assertEqual((status, output), (1, b""))
        self.assertIn(b"bogrunsi: /no/such/program cannot be started", told)


@needs_program
class OfTheProgram(Served):
    """The tree is that of `tx show`, and the commands are the program's."""

    def by_program(self, report: str, *words: str) -> tuple[int, str]:
        path = Path(self.folder, "shown.report")
        path.write_text(report)
        ran = subprocess.run([PROGRAM, *words, str(path)], capture_output=True, text=True, check=False)
        self.assertEqual(ran.stderr, "")
        return ran.returncode, ran.stdout

    def book(self, jobs: bogrunsi.Manager) -> None:
        """Bookings by eight threads that meet at four keys in either order, and that are tried again."""

        def work(number: int) -> None:
            for count in range(6):
                for attempt in jobs.tries(f"t{number}x{count}", 30, bogrunsi.Undone):
                    with attempt as job:
                        for step in (0, 1):
                            for again in job.tries(f"p{step}", 3, KeyError):
                                with again as part:
                                    part.add(f"k{(number * (step + 1) + count * step) % 4}", 1)
                                    if (number + count + step) % 5 == 0 and part.name.endswith(f"p{step}"):
                                        raise KeyError

        threads = [threading.Thread(target=work, args=(number,)) for number in range(8)]
        for thread in threads:
            thread.start()
        for thread in threads:
            thread.join()

    def test_bookings_by_threads(self) -> None:
        with bogrunsi.open(program=PROGRAM) as jobs:
            self.book(jobs)
            live = jobs.begin("live")
            live.begin("part")
            self.assertEqual([shown.outcome for shown in jobs.tree().transactions[-2:]], ["live", "live"])
        tree = jobs.tree()
        self.assertEqual(self.by_program(jobs.report, "show"), (0, str(tree)))
        self.assertEqual([shown.outcome for shown in tree.transactions[-2:]], ["undone at the close", "undone with its parent"])
        self.assertEqual(tree.summary.jobs_committed, 48)
        self.assertGreater(tree.summary.parts_tried_again, 10)
        self.assertEqual(tree.summary.victims, jobs.report.count("* victim "))
        self.assertFalse(tree.all_done)
        self.assertEqual(self.by_program(jobs.report, "show", "--strict"), (1, str(tree)))

    def test_all_is_done(self) -> None:
        with bogrunsi.open(program=PROGRAM) as jobs, jobs.begin("a") as job, job.begin("p") as part:
            part.set("x", 1)
        self.assertTrue(jobs.tree().all_done)
        self.assertEqual(self.by_program(jobs.report, "show", "--strict"), (0, str(jobs.tree())))

    def test_bookings_over_a_server(self) -> None:
        with self.connected() as jobs:
            self.book(jobs)
            tree = jobs.tree()
        self.assertEqual(tree.summary.jobs_committed, 48)
        self.stopped()
        self.assertEqual(self.by_program(Path(self.report).read_text(), "show"), (0, str(tree)))

    def test_the_commands(self) -> None:
        for name in ("deadlock", "retry", "first"):
            path = str(EXAMPLES / f"{name}.report")
            for words in (["show"], ["show", "--jobs"], ["show", "--undone", "--strict"], ["draw"]):
                due = subprocess.run([PROGRAM, *words, path], capture_output=True, check=False)
                command = [sys.executable, "-m", "bogrunsi", *words, path, "--program", PROGRAM]
                ran = subprocess.run(command, cwd=FOLDER, capture_output=True, check=False)
                self.assertEqual((ran.returncode, ran.stdout, ran.stderr), (due.returncode, due.stdout, due.stderr))
                self.assertTrue(due.stdout)
