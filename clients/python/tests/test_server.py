"""Tests of a server and its clients, against the program."""

from __future__ import annotations

import os
import signal
import socket
import stat
import subprocess
import sys
import threading
import time
from collections.abc import Callable
from pathlib import Path

import bogrunsi
from tests.support import FOLDER, PROGRAM, OverDatabase, needs_program


class Served(OverDatabase):
    """A test that has a server of its own."""

    def setUp(self) -> None:
        super().setUp()
        self.socket = str(Path(self.folder, "socket"))
        self.report = str(Path(self.folder, "report"))
        self.server = self.served()

    def served(self, *words: str) -> subprocess.Popen[str]:
        """A server that is ready."""
        command = [sys.executable, "-m", "bogrunsi", "serve", self.path, "--socket", self.socket, "--program", PROGRAM]
        server = subprocess.Popen(
            [*command, "--report", self.report, *words], cwd=FOLDER, stdout=subprocess.PIPE, text=True, start_new_session=True
        )
        self.addCleanup(self.ended, server)
        assert server.stdout is not None
        self.assertIn("serves", server.stdout.readline())
        return server

    def ended(self, server: subprocess.Popen[str]) -> None:
        assert server.stdout is not None
        server.kill()
        server.wait()
        server.stdout.close()

    def stopped(self, number: int = signal.SIGTERM) -> None:
        """Ends the server in order, and has its report judged."""
        self.server.send_signal(number)
        self.assertEqual(self.server.wait(30), 0)
        judged = subprocess.run([PROGRAM, "check", self.report], capture_output=True, check=False)
        self.assertEqual(judged.stdout, b"yes\n")

    def connected(self, timeout: float | None = None) -> bogrunsi.Connected:
        return bogrunsi.connect(self.socket, timeout=timeout)

    def client(self, script: str) -> subprocess.Popen[str]:
        """A process that runs a script with `jobs` connected, and prints something when it has come to its point."""
        head = f"import bogrunsi, os, time\njobs = bogrunsi.connect({self.socket!r})\n"
        client = subprocess.Popen([sys.executable, "-c", head + script], cwd=FOLDER, stdout=subprocess.PIPE, text=True)
        self.addCleanup(self.ended, client)
        return client

    def until(self, is_so: Callable[[], bool], seconds: float = 20.0) -> None:
        until = time.monotonic() + seconds
        while not is_so():
            self.assertLess(time.monotonic(), until)
            time.sleep(0.02)


@needs_program
class Calls(Served):
    """A client has the same calls as a manager of its own."""

    def test_values_and_exceptions(self) -> None:
        with self.connected() as jobs:
            with jobs.begin("night") as night:
                with night.begin("part") as part:
                    part.set("x.a", 5)
                    self.assertEqual(part.add("x.b", -2), -2)
                    self.assertIsNone(part.get("x.c"))
                    part.set("x.d", 1)
                    part.delete("x.d")
                self.assertEqual(night.sum("x"), 3)
                self.assertRaises(bogrunsi.Undone, lambda: self.undone(night))
                with self.assertRaises(bogrunsi.Refused) as refused:
                    night.begin("part")
                self.assertEqual(refused.exception.cause, "used")
                self.assertRaises(bogrunsi.NotTaken, night.get, "X")
                self.assertRaises(ValueError, night.get, "x y")
                self.assertRaises(TypeError, night.set, "x", 1.5)
                night.set("x.a", 2**63 - 1)
                self.assertRaises(bogrunsi.Overflow, night.add, "x.a", 1)
                night.set("x.a", 5)
            self.assertEqual(repr(night), "<bogrunsi.Transaction night committed>")
            self.assertEqual(jobs.table, {"x.a": 5, "x.b": -2})
            self.assertEqual(jobs.keys("x"), ["x.a", "x.b"])
            self.assertIn("begin night -> ok\n", jobs.report)
            self.assertGreater(jobs.remaining["calls"], 60000)
        with self.connected() as jobs:
            self.assertEqual(jobs.opening, {})
        self.stopped()

    @staticmethod
    def undone(night: bogrunsi.Transaction) -> None:
        part = night.begin()
        part.undo()
        part.get("x.a")

    def test_time_outs_and_tries(self) -> None:
        with self.connected(timeout=0.2) as jobs, self.connected() as others:
            with others.begin("holder") as holder:
                holder.set("x", 1)
                with self.assertRaises(bogrunsi.TimedOut), jobs.begin("late") as late:
                    late.get("x")
            count = 0
            for attempt in jobs.tries("again", 5, KeyError):
                with attempt as job:
                    count += 1
                    job.add("x", 1)
                    if count < 3:
                        raise KeyError
            self.assertEqual(jobs.table, {"x": 2})

    def test_a_part_in_another_process(self) -> None:
        with self.connected() as jobs, jobs.begin("night") as night:
            client = self.client(
                "with jobs.transaction('night').begin('part') as part:\n    part.set('x', 7)\njobs.close()\nprint('done', flush=True)\n"
            )
            assert client.stdout is not None
            self.assertEqual(client.stdout.readline(), "done\n")
            self.assertEqual(night.get("x"), 7)

    def test_threads(self) -> None:
        def work(number: int) -> None:
            for _ in range(30):
                for attempt in jobs.tries(times=50):
                    with attempt as job, job.begin("part") as part:
                        part.add(f"k{number % 3}", 1)

        with self.connected() as jobs:
            threads = [threading.Thread(target=work, args=(number,)) for number in range(8)]
            for thread in threads:
                thread.start()
            for thread in threads:
                thread.join(60)
            self.assertEqual(sum(jobs.table.values()), 240)
        self.stopped()

    def test_a_forked_child_is_refused(self) -> None:
        jobs = self.connected()
        job = jobs.begin("a")
        job.set("x", 1)
        child = os.fork()
        if child == 0:
            try:
                job.get("x")
            except bogrunsi.Forked:
                os._exit(7)
            os._exit(1)
        self.assertEqual(os.waitstatus_to_exitcode(os.waitpid(child, 0)[1]), 7)
        self.assertEqual(job.get("x"), 1)
        jobs.close()


@needs_program
class Ends(Served):
    """What becomes of what a client or a server leaves."""

    def test_a_client_that_is_killed_in_a_part(self) -> None:
        client = self.client("part = jobs.begin('b').begin('part')\npart.set('x', 2)\nprint('going', flush=True)\ntime.sleep(60)\n")
        assert client.stdout is not None
        client.stdout.readline()
        with self.connected() as jobs:
            client.kill()
            with jobs.begin("next", timeout=10) as job:
                self.assertIsNone(job.get("x"))
                job.set("x", 3)
            self.assertEqual(jobs.table, {"x": 3})

    def test_a_client_that_is_killed_while_its_call_waits(self) -> None:
        with self.connected() as jobs, jobs.begin("holder") as holder:
            holder.set("x", 1)
            client = self.client("job = jobs.begin('b')\njob.set('y', 2)\nprint('going', flush=True)\njob.set('x', 2)\n")
            assert client.stdout is not None
            client.stdout.readline()
            self.until(lambda: "set b x 2 -> waits" in jobs.report)
            client.kill()
            self.until(lambda: "set b x 2 -> orphan b" in jobs.report)
            with jobs.begin("next", timeout=10) as job:
                job.set("y", 3)

    def test_an_interrupted_call_costs_its_connection_alone(self) -> None:
        with self.connected() as jobs:
            holder = jobs.begin("holder")
            holder.set("x", 1)

            def handler(number: int, frame: object) -> None:
                raise KeyError

            before = signal.signal(signal.SIGALRM, handler)
            try:
                for _ in range(20):
                    with self.assertRaises(KeyError), jobs.begin() as other:
                        signal.setitimer(signal.ITIMER_REAL, 0.02)
                        other.set("x", 2)
            finally:
                signal.setitimer(signal.ITIMER_REAL, 0)
                signal.signal(signal.SIGALRM, before)
            holder.commit()
            with jobs.begin("next", timeout=10) as job:
                self.assertEqual(job.get("x"), 1)

    def test_jobs_at_hand_get_some_seconds(self) -> None:
        jobs = self.connected()
        job, left = jobs.begin("a"), jobs.begin("b")
        job.set("x", 1)
        left.set("y", 1)
        self.server.terminate()
        self.until(lambda: self.refuses_jobs(jobs))
        job.add("x", 1)
        job.commit()
        self.assertEqual(self.server.wait(30), 0)
        self.assertRaises(bogrunsi.Failed, left.get, "y")
        self.assertRegex(Path(self.report).read_text(), r"\* close b\ntable\nx=2\nend\n$")
        with self.opened() as own:
            self.assertEqual(own.opening, {"x": 2})

    @staticmethod
    def refuses_jobs(jobs: bogrunsi.Connected) -> bool:
        try:
            jobs.begin().undo()
        except bogrunsi.Failed:
            return True
        return False

    def test_control_c(self) -> None:
        with self.connected() as jobs, jobs.begin("a") as job:
            job.set("x", 1)
        os.killpg(self.server.pid, signal.SIGINT)
        self.assertEqual(self.server.wait(30), 0)
        self.assertTrue(Path(self.report).read_text().endswith("table\nx=1\nend\n"))

    def test_a_server_that_is_killed_and_begun_again(self) -> None:
        for count in range(1, 4):
            jobs = self.connected()
            with jobs.begin("a") as job:
                self.assertEqual(job.add("x", 1), count)
            part = jobs.begin("b").begin("part")
            part.set("x", 99)
            self.server.kill()
            self.assertRaises(bogrunsi.Failed, part.commit)
            self.assertTrue(os.path.exists(self.socket))
            self.server = self.served()
        self.stopped()

    def test_a_program_that_is_killed(self) -> None:
        jobs = self.connected()
        job = jobs.begin("a")
        for number in Path("/proc").iterdir():
            if number.name.isdigit():
                try:
                    status = (number / "stat").read_text().rsplit(")", 1)[1].split()
                except OSError:
                    continue
                if status[1] == str(self.server.pid):
                    os.kill(int(number.name), signal.SIGKILL)
        self.assertRaises(bogrunsi.Failed, job.get, "x")
        self.assertEqual(self.server.wait(30), 1)


@needs_program
class Sockets(Served):
    """Who may connect, and what a connection can cost others."""

    def raw(self) -> socket.socket:
        found = socket.socket(socket.AF_UNIX, socket.SOCK_STREAM)
        found.settimeout(20)
        found.connect(self.socket)
        self.addCleanup(found.close)
        self.assertTrue(found.recv(200).startswith(b"bogrunsi 1 "))
        return found

    def test_the_socket_is_its_owners(self) -> None:
        told = os.stat(self.socket)
        self.assertEqual(stat.S_IMODE(told.st_mode), 0o600)
        self.assertTrue(stat.S_ISSOCK(told.st_mode))

    def test_a_living_server_is_left_alone(self) -> None:
        other = subprocess.run(
            [sys.executable, "-m", "bogrunsi", "serve", f"{self.path}2", "--socket", self.socket, "--program", PROGRAM],
            cwd=FOLDER,
            capture_output=True,
            text=True,
            check=False,
        )
        self.assertEqual(other.returncode, 1)
        self.assertIn("another server", other.stderr)
        with self.connected() as jobs, jobs.begin("a"):
            pass

    def test_a_client_in_another_language(self) -> None:
        found = self.raw()
        found.sendall(b"begin - a\nset a x 5\nget a x\nnonsense\nget a x y\ncommit a\nbegin - -\ntable\nget q x\n")
        told = b""
        while not told.endswith(b"refused unknown\n"):
            told += found.recv(4096)
        self.assertRegex(
            told.decode(),
            r"^begun a\nok\nvalue 5\nwrong .*\nwrong .*\nok\nbegun job[a-z0-9]+\nrows 1\nx=5\nrefused unknown\n$",
        )

    def test_a_connection_that_ends_while_its_call_waits(self) -> None:
        # It is the client's only one, so nobody reads from it when it ends.
        with self.connected() as jobs, jobs.begin("holder") as holder:
            holder.set("x", 1)
            found = self.raw()
            found.sendall(b"begin - a\nset a y 1\nset a x 2\n")
            self.until(lambda: "set a x 2 -> waits" in jobs.report)
            found.close()
            self.until(lambda: "set a x 2 -> orphan a" in jobs.report)
            with jobs.begin("next", timeout=10) as job:
                job.set("y", 2)

    def test_one_that_does_not_read(self) -> None:
        found = self.raw()
        found.setblocking(False)
        sent = 0
        try:
            while sent < 50_000_000:
                sent += found.send(b"table\n" * 1000)
        except BlockingIOError:
            pass
        # What the server keeps for it is bounded by what the system keeps.
        self.assertLess(sent, 5_000_000)
        with self.connected(timeout=5) as jobs:
            began = time.monotonic()
            for _ in range(50):
                with jobs.begin() as job:
                    job.add("x", 1)
            self.assertLess(time.monotonic() - began, 20)

    def test_a_line_that_is_too_long(self) -> None:
        found = self.raw()
        try:
            for _ in range(1000):
                found.sendall(b"x" * 65536)
        except OSError:
            pass
        memory = Path(f"/proc/{self.server.pid}/status").read_text()
        self.assertLess(int(memory.split("VmRSS:")[1].split()[0]), 200_000)
        with self.connected() as jobs, jobs.begin("a"):
            pass

    def test_many_connections(self) -> None:
        held = [self.raw() for _ in range(100)]
        with self.connected() as jobs, jobs.begin("a"):
            pass
        for found in held:
            found.close()

    def test_something_else_is_at_the_path(self) -> None:
        Path(f"{self.socket}2").write_text("a file")
        other = subprocess.run(
            [sys.executable, "-m", "bogrunsi", "serve", f"{self.path}2", "--socket", f"{self.socket}2", "--program", PROGRAM],
            cwd=FOLDER,
            capture_output=True,
            text=True,
            check=False,
        )
        self.assertEqual(other.returncode, 1)
        self.assertIn("is no socket", other.stderr)
