"""Tests of the examples: each is run, and what it leaves is looked at."""

from __future__ import annotations

import os
import random
import signal
import subprocess
import sys
import time
from pathlib import Path

import bogrunsi
from tests.support import FOLDER, PROGRAM, OverDatabase, needs_program


@needs_program
class Examples(OverDatabase):
    """The four jobs that the client is made for."""

    def begun(self, name: str, *words: str) -> subprocess.Popen[str]:
        command = [sys.executable, str(FOLDER / "examples" / f"{name}.py"), PROGRAM, self.path, *words]
        environment = {**os.environ, "PYTHONPATH": str(FOLDER)}
        return subprocess.Popen(command, env=environment, stdout=subprocess.PIPE, stderr=subprocess.STDOUT, text=True)

    def told(self, example: subprocess.Popen[str], status: int = 0) -> str:
        told, _ = example.communicate(timeout=120)
        self.assertEqual(example.returncode, status, told)
        return told

    def rows(self) -> dict[str, int]:
        with self.opened(wait=10.0) as jobs:
            return jobs.opening

    def test_an_import_that_is_killed(self) -> None:
        files = Path(self.folder, "files")
        files.mkdir()
        chance = random.Random(1)
        due = {"rows.orders": 0, "rows.items": 0, "total.orders": 0, "total.items": 0}
        for number in range(40):
            lines = []
            for section in ("orders", "items"):
                values = [chance.randrange(1000) for _ in range(chance.randrange(1, 9))]
                due[f"rows.{section}"] += len(values)
                due[f"total.{section}"] += sum(values)
                lines.append(" ".join([section, *map(str, values)]))
            (files / f"day{number}.txt").write_text("\n".join(lines))
        kills = 0
        while True:
            example = self.begun("import_files", str(files))
            assert example.stdout is not None
            if kills < 3:
                for _ in range(6):
                    example.stdout.readline()
                time.sleep(chance.uniform(0, 0.02))
                example.kill()
                kills += 1
                self.told(example, -signal.SIGKILL)
                continue
            self.told(example)
            break
        rows = self.rows()
        self.assertEqual(len([key for key in rows if key.startswith("done.")]), 40)
        self.assertEqual({key: rows[key] for key in due}, due)
        again = self.begun("import_files", str(files))
        self.assertIn("40 files were in before", self.told(again))
        self.assertEqual(self.rows(), rows)

    def test_bookings(self) -> None:
        self.assertRegex(self.told(self.begun("bookings")), r"^150 trips were asked for, and [1-9][0-9]* booked\n$")
        rows = self.rows()
        self.assertEqual(rows["trips"], rows["taken.car.small"])

    def test_a_service(self) -> None:
        for _ in range(2):
            example = self.begun("service", "200")
            assert example.stdout is not None
            self.assertEqual(example.stdout.readline(), "serves\n")
            time.sleep(1.0)
            example.send_signal(signal.SIGTERM)
            told = self.told(example)
            done = int(told.split(" ")[0])
            self.assertGreater(done, 5)
            self.assertEqual(self.rows()["ticks"], done)

    def test_parts_in_processes(self) -> None:
        told = self.told(self.begun("processes", str(Path(self.folder, "socket"))))
        self.assertIn("part 3 is done again\n", told)
        self.assertIn("the total is 28\n", told)
        self.assertEqual(self.rows()["rows.all"], 28)
