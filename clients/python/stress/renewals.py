"""Many short jobs from sixteen threads through as many runs as they take.

    python3 -m stress.renewals PROGRAM [JOBS]

Each job adds 1 to one of sixty-four keys, and each eighth does so in a part. At the end the sum has to be the number of the jobs, and the
report of each run has to be judged `yes`. It prints what it did, and exits with 1 where something is wrong.
"""

from __future__ import annotations

import subprocess
import sys
import tempfile
import threading
import time
from itertools import count
from pathlib import Path

import bogrunsi

THREADS = 16
KEYS = 64


def work(jobs: bogrunsi.Jobs, numbers: count[int], most: int, faults: list[BaseException]) -> None:
    """Does jobs until there are as many as wanted."""
    try:
        while (number := next(numbers)) < most:
            for attempt in jobs.tries(times=50):
                with attempt as job:
                    if number % 8:
                        job.add(f"sum.k{number % KEYS}", 1)
                    else:
                        with job.begin("part") as part:
                            part.add(f"sum.k{number % KEYS}", 1)
    except BaseException as fault:
        faults.append(fault)


class Judge:
    """Has the reports of runs judged, once a later run has begun, and removes them."""

    def __init__(self, program: str, folder: str) -> None:
        self._program = program
        self._folder = Path(folder)
        self.judged = 0
        self.wrong: list[str] = []

    def path(self, number: int) -> str:
        """The path for the report of a run."""
        return str(self._folder / f"report.{number}")

    def judge_to(self, runs: int) -> None:
        """Judges the reports of so many runs, but for those that were judged."""
        while self.judged < runs:
            path = self.path(self.judged + 1)
            told = subprocess.run([self._program, "check", path], capture_output=True, check=False).stdout
            if told != b"yes\n":
                self.wrong.append(f"run {self.judged + 1}: {told!r}")
            Path(path).unlink()
            self.judged += 1


def main() -> int:
    program = sys.argv[1]
    most = int(sys.argv[2]) if len(sys.argv) > 2 else 1000000
    faults: list[BaseException] = []
    began = time.monotonic()
    with tempfile.TemporaryDirectory() as folder:
        judge = Judge(program, folder)
        with bogrunsi.open(str(Path(folder, "jobs.db")), program=program, report=judge.path) as jobs:
            numbers = count()
            threads = [threading.Thread(target=work, args=(jobs, numbers, most, faults)) for _ in range(THREADS)]
            for thread in threads:
                thread.start()
            while any(thread.is_alive() for thread in threads):
                time.sleep(0.5)
                judge.judge_to(jobs.runs - 1)
        judge.judge_to(jobs.runs)
        total = sum(value for key, value in jobs.table.items() if key.startswith("sum."))
    seconds = time.monotonic() - began
    print(f"{most} jobs, {THREADS} threads, {jobs.runs} runs, {seconds:.0f} seconds: the sum is {total}, {judge.judged} reports judged")
    for wrong in [*judge.wrong, *map(repr, faults)]:
        print(wrong)
    return 0 if total == most and not faults and not judge.wrong else 1


if __name__ == "__main__":
    sys.exit(main())
