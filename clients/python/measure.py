"""Measures what a call costs, against bare writes and reads of the same requests in the same run.

    python3 measure.py PROGRAM [ROUNDS]

Each round asks for values by bare `os.write` and `os.read`, and by the client; then by the client in one thread and in eight, each with a
part of its own. All are in lock step. It prints the medians of the rounds, and the medians of the ratios, which a busy machine changes less.
"""

from __future__ import annotations

import os
import statistics
import subprocess
import sys
import threading
import time
from collections.abc import Callable

import bogrunsi

CALLS = 4000
THREADED_CALLS = 32000
THREADS = 8


def per_second(work: Callable[[], None]) -> float:
    """How many of the calls of the work are made in a second."""
    began = time.perf_counter()
    work()
    return CALLS / (time.perf_counter() - began)


def bare(program: str) -> float:
    """Requests as bytes, over a pipe."""
    process = subprocess.Popen([program, "live"], stdin=subprocess.PIPE, stdout=subprocess.PIPE, bufsize=0)
    assert process.stdin is not None and process.stdout is not None
    to, source = process.stdin.fileno(), process.stdout.fileno()
    os.read(source, 65536)
    for line in (b"a begin t\n", b"a set t x 5\n"):
        os.write(to, line)
        os.read(source, 65536)

    def work() -> None:
        for count in range(CALLS):
            os.write(to, b"s%d get t x\n" % (count // 1024))
            os.read(source, 65536)

    speed = per_second(work)
    process.stdin.close()
    process.stdout.read()
    process.stdout.close()
    process.wait()
    return speed


def client(program: str) -> float:
    """The same requests by the client."""
    with bogrunsi.open(program=program) as jobs, jobs.begin("t") as job:
        job.set("x", 5)

        def work() -> None:
            for _ in range(CALLS):
                job.get("x")

        return per_second(work)


def threaded(program: str, threads: int) -> float:
    """The same by so many threads, each in a part of its own with a key of its own."""
    with bogrunsi.open(program=program) as jobs, jobs.begin("t") as job:
        parts = [job.begin(f"p{number}") for number in range(threads)]

        def ask(part: bogrunsi.Transaction, key: str) -> None:
            part.set(key, 5)
            for _ in range(THREADED_CALLS // threads):
                part.get(key)
            part.commit()

        workers = [threading.Thread(target=ask, args=(part, f"x{number}")) for number, part in enumerate(parts)]
        began = time.perf_counter()
        for worker in workers:
            worker.start()
        for worker in workers:
            worker.join()
        return THREADED_CALLS / (time.perf_counter() - began)


def main() -> None:
    program = sys.argv[1]
    rounds = int(sys.argv[2]) if len(sys.argv) > 2 else 20
    pairs = [(bare(program), client(program)) for _ in range(rounds)]
    spread = [(threaded(program, 1), threaded(program, THREADS)) for _ in range(rounds)]
    for names, made in ((("bare", "client"), pairs), (("one thread", f"{THREADS} threads"), spread)):
        for name, speeds in zip(names, zip(*made, strict=True), strict=True):
            print(f"{name}: {statistics.median(speeds):,.0f} calls a second")
        print(f"{names[1]} to {names[0]}: {statistics.median(second / first for first, second in made):.2f}")


if __name__ == "__main__":
    main()
