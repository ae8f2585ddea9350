"""One job whose parts are done by processes of their own.

    python3 processes.py PROGRAM DATABASE SOCKET

A server keeps the manager. This process begins the job, each of the others does some of its parts, and the job commits once with all of them.
One of them is killed in the middle of a part, which is undone, and done again by another.
"""

from __future__ import annotations

import os
import subprocess
import sys
import time

import bogrunsi

PARTS = 8


def do_part(socket: str, job: str, number: int, dies: bool) -> None:
    """What a process of its own does: one part of a job that was begun elsewhere."""
    with bogrunsi.connect(socket, timeout=30.0) as jobs:
        for attempt in jobs.transaction(job).tries():
            with attempt as part:
                part.add("rows.all", number)
                part.set(f"rows.p{number}", number)
                if dies:
                    os.kill(os.getpid(), 9)
                time.sleep(0.01)


def begin(socket: str, job: str, number: int, dies: bool) -> subprocess.Popen[bytes]:
    """Begins a process that does a part."""
    return subprocess.Popen([sys.executable, __file__, "part", socket, job, str(number), str(int(dies))])


def main() -> None:
    program, database, socket = sys.argv[1:]
    server = subprocess.Popen(
        [sys.executable, "-m", "bogrunsi", "serve", database, "--socket", socket, "--program", program], stdout=subprocess.PIPE
    )
    assert server.stdout is not None
    server.stdout.readline()
    with bogrunsi.connect(socket) as jobs:
        with jobs.begin() as job:
            processes = {number: begin(socket, job.name, number, number == 3) for number in range(PARTS)}
            while processes:
                number, process = processes.popitem()
                if process.wait() != 0:
                    print(f"part {number} is done again")
                    processes[number] = begin(socket, job.name, number, False)
            total = job.get("rows.all")
        assert total == sum(range(PARTS)) == sum(jobs.table[f"rows.p{number}"] for number in range(PARTS))
    server.terminate()
    assert server.wait() == 0
    print(f"{PARTS} parts were done, and the total is {total}")


if __name__ == "__main__":
    if sys.argv[1] == "part":
        do_part(sys.argv[2], sys.argv[3], int(sys.argv[4]), sys.argv[5] == "1")
    else:
        main()
