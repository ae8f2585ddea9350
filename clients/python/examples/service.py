"""A service that does a job some times a second, for as long as it is let.

    python3 service.py PROGRAM DATABASE [JOBS_A_SECOND]

Jobs need no names, and runs of the program renew themselves: nothing here counts them. SIGTERM and SIGINT end it between two jobs, and the
database then holds all that was done.
"""

from __future__ import annotations

import signal
import sys
import threading
import time
from types import FrameType

import bogrunsi


def tick(jobs: bogrunsi.Manager) -> int:
    """One job: counts how often it was done, and keeps the time of the last."""
    done = 0
    for attempt in jobs.tries():
        with attempt as job:
            done = job.add("ticks", 1)
            job.set("last", int(time.time()))
    return done


def main() -> None:
    program, database = sys.argv[1:3]
    pause = 1.0 / float(sys.argv[3]) if len(sys.argv) > 3 else 0.25
    stopping = False

    def stop(number: int, frame: FrameType | None) -> None:
        nonlocal stopping
        stopping = True

    for number in (signal.SIGTERM, signal.SIGINT):
        signal.signal(number, stop)
    with bogrunsi.open(database, program=program, timeout=10.0, wait=30.0) as jobs:
        print("serves", flush=True)
        done = 0
        never = threading.Event()
        while not stopping:
            done = tick(jobs)
            never.wait(pause)
        print(f"{done} jobs were done in {jobs.runs} runs", flush=True)


if __name__ == "__main__":
    main()
