"""What the tests share: a stand-in for the program, which prints what each test tells it, and the program itself."""

from __future__ import annotations

import json
import os
import sys
import tempfile
import time
import unittest
from pathlib import Path

import bogrunsi

PROGRAM = os.environ.get("BOGRUNSI_TX", "")
FOLDER = Path(__file__).parent.parent
needs_program = unittest.skipUnless(PROGRAM, "BOGRUNSI_TX does not name a program")

# It answers `ok` to what the script says nothing of. The script has for a request's text the lines to print: `= REPLY` is the
# request's own entry, `= TEXT: REPLY` that of the request with that text, `! KIND` a fault line of it, and others stand as they
# are. It counts lines as the program does. By `undoes` it answers a verb of the first part, or of all, that the part or its job was undone.
STAND_IN = r"""
import json, sys
script = json.loads(sys.argv[1])
counts, sent = {}, {}
verb, undoes, always = script["undoes"]
undone = set()
def say(line):
    print(line, flush=True)
for line in script["open"]:
    say(line)
for number, request in enumerate(sys.stdin, 1):
    label, _, text = request.rstrip("\n").partition(" ")
    if not label:
        say(f"tx: line {number}: empty")
        continue
    lines = script.get(text, ["= ok"])
    words = text.split(" ")
    if undoes and words[0] == verb and "/" in words[1] and (always or not undone):
        undone.add(words[1])
        lines = ["= orphan " + (words[1] if undoes == "part" else words[1].split("/")[0])]
    if not lines[0].startswith("!"):
        counts[label] = counts.get(label, 0) + 1
        sent[text] = f"{label} {counts[label]} {text}"
    for line in lines:
        if line == "exit":
            sys.exit(1)
        elif line.startswith("! "):
            say(f"tx: line {number}: {line[2:]}")
        elif line.startswith("= ") and ": " in line:
            other, _, reply = line[2:].partition(": ")
            say(f"{sent[other]} -> {reply}")
        elif line.startswith("= "):
            say(f"{sent[text]} -> {line[2:]}")
        else:
            say(line)
for line in script["close"]:
    say(line)
sys.exit(script.get("status", 0))
"""


def stand_in(
    replies: dict[str, list[str]],
    *,
    opening: tuple[str, ...] = ("open",),
    closing: tuple[str, ...] = ("table", "end"),
    status: int = 0,
    timeout: float | None = None,
    undoes: tuple[str, str, bool] = ("", "", False),
) -> bogrunsi.Jobs:
    """A run of the stand-in with these replies."""
    script = {**replies, "open": opening, "close": closing, "status": status, "undoes": undoes}
    return bogrunsi.open(program=[sys.executable, "-c", STAND_IN, json.dumps(script)], timeout=timeout)


def until_it_waits(jobs: bogrunsi.Jobs) -> None:
    """Returns once a line of the run waits."""
    while "waits" not in jobs.report:
        time.sleep(0.01)


class OverDatabase(unittest.TestCase):
    """A test that has a database of its own."""

    def setUp(self) -> None:
        folder = tempfile.TemporaryDirectory(ignore_cleanup_errors=True)
        self.addCleanup(folder.cleanup)
        self.folder = folder.name
        self.path = str(Path(folder.name, "jobs.db"))

    def opened(self, timeout: float | None = None, report: str | None = None, wait: float = 2.0) -> bogrunsi.Jobs:
        return bogrunsi.open(self.path, program=PROGRAM, timeout=timeout, report=report, wait=wait)
