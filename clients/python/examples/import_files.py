"""A nightly import of many files, each in a job of its own.

    python3 import_files.py PROGRAM DATABASE FOLDER

A file is a job, and each of its sections is a part. A part that fails is undone alone, and done again. The job sets `done.FILE` beside what it
counts: both commit together, so a second start knows which files are in, whatever became of the first. A kill loses the file at hand, and
no other.
"""

from __future__ import annotations

import logging
import random
import sys
from pathlib import Path

import bogrunsi

LOG = logging.getLogger("import")


def load(section: str) -> list[int]:
    """The numbers of a section. Its source fails now and then, as sources do."""
    if random.random() < 0.1:
        raise OSError("the source did not answer")
    return [int(word) for word in section.split()]


def import_file(jobs: bogrunsi.Jobs, path: Path) -> None:
    """Counts what is in a file. Each of its lines is a section: a word, and numbers behind it."""
    for attempt in jobs.tries(again_after=OSError):
        with attempt as job:
            for line in path.read_text().splitlines():
                section, _, numbers = line.partition(" ")
                for part_attempt in job.tries(section, 5, OSError):
                    with part_attempt as part:
                        values = load(numbers)
                        part.add(f"rows.{section}", len(values))
                        part.add(f"total.{section}", sum(values))
            job.set(f"done.{path.stem}", 1)
    LOG.info("%s is in", path.name)


def main() -> None:
    logging.basicConfig(level=logging.INFO, format="%(asctime)s %(message)s", stream=sys.stdout)
    program, database, folder = sys.argv[1:]
    with bogrunsi.open(database, program=program, wait=10.0) as jobs:
        done = set(jobs.keys("done"))
        LOG.info("%d files were in before", len(done))
        for path in sorted(Path(folder).iterdir()):
            if f"done.{path.stem}" not in done:
                import_file(jobs, path)
        LOG.info("rows: %s", {key: jobs.table[key] for key in jobs.keys("rows")})


if __name__ == "__main__":
    main()
