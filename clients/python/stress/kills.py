"""Eight processes at one server, of which one is killed each second, and begun again.

    python3 -m stress.kills PROGRAM [SECONDS [SERVER]]

Each process does jobs of two parts: one adds 1 to a counter of its own, the other to one of four keys that all share. It notes each commit
that it was told of. With SERVER the server is killed too, each so many seconds, and begun again. At the end

- each counter has at least the commits that were noted, and at most one more for each kill;
- the counters and the shared keys have the same sum, so that no job is there in part;
- a job can have all the keys at once, so that no lock stays;
- the report is judged `yes`, where the server was ended in order.
"""

from __future__ import annotations

import os
import random
import signal
import subprocess
import sys
import tempfile
import time
from pathlib import Path

import bogrunsi

PROCESSES = 8


def work(socket: str, number: int, notes: str) -> None:
    """Does jobs until it is killed. Where the server has gone, it connects again."""
    note = os.open(notes, os.O_WRONLY | os.O_APPEND | os.O_CREAT)
    chance = random.Random()
    while True:
        try:
            with bogrunsi.connect(socket, timeout=20) as jobs:
                while True:
                    for attempt in jobs.tries(times=100):
                        with attempt as job:
                            with job.begin("own") as part:
                                part.add(f"count.w{number}", 1)
                            with job.begin("shared") as part:
                                part.add(f"hot.k{chance.randrange(4)}", 1)
                                time.sleep(0.001)
                    os.write(note, b"x")
        except bogrunsi.Failed:
            time.sleep(0.05)


class Field:
    """A server, its processes, and how often each was killed."""

    def __init__(self, program: str, folder: str) -> None:
        self.program = program
        self.folder = Path(folder)
        self.socket = str(self.folder / "socket")
        self.kills = [0] * PROCESSES
        self.server = self.begin_server()
        self.servers = 1
        self.processes = [self.begin(number) for number in range(PROCESSES)]

    def begin_server(self) -> subprocess.Popen[bytes]:
        command = [sys.executable, "-m", "bogrunsi", "serve", str(self.folder / "jobs.db"), "--socket", self.socket]
        command += ["--program", self.program, "--report", str(self.folder / "report"), "--wait", "60"]
        server = subprocess.Popen(command, stdout=subprocess.PIPE)
        assert server.stdout is not None
        server.stdout.readline()
        return server

    def begin(self, number: int) -> subprocess.Popen[bytes]:
        command = [sys.executable, "-m", "stress.kills", "work", self.socket, str(number), str(self.folder / f"notes{number}")]
        return subprocess.Popen(command, stderr=subprocess.DEVNULL)

    def kill_server(self) -> None:
        """Kills the server, and begins it again over what it left."""
        self.server.kill()
        self.server.wait()
        # A commit that a process was not told of may have been done in each.
        self.kills = [kills + 1 for kills in self.kills]
        self.server = self.begin_server()
        self.servers += 1

    def kill(self, number: int) -> None:
        """Kills a process, and begins it again."""
        self.processes[number].kill()
        self.processes[number].wait()
        self.kills[number] += 1
        self.processes[number] = self.begin(number)

    def noted(self, number: int) -> int:
        """How many commits a process was told of."""
        notes = self.folder / f"notes{number}"
        return notes.stat().st_size if notes.exists() else 0

    def end(self) -> None:
        for number, process in enumerate(self.processes):
            process.kill()
            process.wait()
            self.kills[number] += 1


def judge(field: Field) -> list[str]:
    """What is wrong, once all processes were killed."""
    wrong: list[str] = []
    with bogrunsi.connect(field.socket, timeout=10) as jobs:
        try:
            with jobs.begin() as job:
                for key in [*(f"count.w{number}" for number in range(PROCESSES)), *(f"hot.k{number}" for number in range(4))]:
                    job.add(key, 0)
        except bogrunsi.TimedOut as fault:
            wrong.append(f"a lock stays: {fault}")
        rows = jobs.table
    for number in range(PROCESSES):
        stored, noted = rows.get(f"count.w{number}", 0), field.noted(number)
        if not noted <= stored <= noted + field.kills[number]:
            wrong.append(f"process {number} was told of {noted} commits with {field.kills[number]} kills, and {stored} are stored")
        if noted == 0:
            wrong.append(f"process {number} did nothing")
    counts = sum(value for key, value in rows.items() if key.startswith("count."))
    if counts != sum(value for key, value in rows.items() if key.startswith("hot.")):
        wrong.append(f"a job is there in part: {rows}")
    field.server.send_signal(signal.SIGTERM)
    if field.server.wait(60) != 0:
        wrong.append("the server did not end in order")
    for report in field.folder.glob("report*"):
        told = subprocess.run([field.program, "check", str(report)], capture_output=True, check=False).stdout
        if told != b"yes\n":
            wrong.append(f"{report.name}: {told!r}")
    return wrong


def main() -> int:
    program = sys.argv[1]
    seconds = float(sys.argv[2]) if len(sys.argv) > 2 else 60.0
    each = float(sys.argv[3]) if len(sys.argv) > 3 else 0.0
    chance = random.Random()
    with tempfile.TemporaryDirectory(ignore_cleanup_errors=True) as folder:
        field = Field(program, folder)
        began = last = time.monotonic()
        while time.monotonic() - began < seconds:
            time.sleep(1.0)
            field.kill(chance.randrange(PROCESSES))
            if each and time.monotonic() - last >= each:
                field.kill_server()
                last = time.monotonic()
        field.end()
        kills, noted = sum(field.kills), sum(field.noted(number) for number in range(PROCESSES))
        wrong = judge(field)
    print(f"{seconds:.0f} seconds, {kills} kills, {field.servers} servers: {noted} commits were told of, {len(wrong)} things are wrong")
    for line in wrong:
        print(line)
    return 1 if wrong else 0


if __name__ == "__main__":
    if sys.argv[1] == "work":
        work(sys.argv[2], int(sys.argv[3]), sys.argv[4])
    sys.exit(main())
