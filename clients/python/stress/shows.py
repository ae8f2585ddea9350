"""What `tx show` and `tx draw` print of reports, beside what this client reads off them.

    python3 -m stress.shows PROGRAM REPORT...

Of each report the tree has to be the client's, with each choice of `--jobs` and `--undone`, and the status of `--strict` has to be that of
its `all_done`. The picture has to be XML of the elements and the attributes that pictures have, without anything that runs or that is
fetched from elsewhere. Each command has two seconds and 200 MB. It prints what it did, and exits with 1 where something is wrong.
"""

from __future__ import annotations

import resource
import subprocess
import sys
import time
import xml.etree.ElementTree as xml
from pathlib import Path

from bogrunsi.shown import Shown, ShownTree, tree_of

SECONDS = 2.0
MEGABYTES = 200
# A command that has not ended by then is ended.
MOST_SECONDS = 20
SPACE = "{http://www.w3.org/2000/svg}"
ELEMENTS = set("svg style defs pattern marker title desc text tspan g rect line path polyline polygon circle".split())


class Looks:
    """Runs of the program, and what was wrong with them."""

    def __init__(self, program: str) -> None:
        self._program = program
        self.wrong: list[str] = []
        self.slowest = 0.0

    def printed(self, *words: str) -> tuple[int, bytes]:
        """The status and the output of a run, in which nothing may be told as a fault."""
        start = time.monotonic()
        try:
            ran = subprocess.run([self._program, *words], capture_output=True, timeout=MOST_SECONDS, check=False)
        except subprocess.TimeoutExpired:
            self.wrong.append(f"{words}: no end after {MOST_SECONDS} seconds")
            return -1, b""
        took = time.monotonic() - start
        self.slowest = max(self.slowest, took)
        if took > SECONDS:
            self.wrong.append(f"{words}: {took:.2f} seconds")
        if ran.stderr:
            self.wrong.append(f"{words}: {ran.stderr[:80]!r}")
        return ran.returncode, ran.stdout

    def look_at(self, path: str) -> None:
        """Looks at what is printed of a report."""
        tree = tree_of(Path(path).read_text())
        choices: list[list[str]] = [[], ["--jobs"], ["--undone"], ["--jobs", "--undone"]]
        for choice in choices:
            due = chosen(tree, "--jobs" in choice, "--undone" in choice).encode()
            if self.printed("show", path, *choice) != (0, due):
                self.wrong.append(f"{path}: show {' '.join(choice)} has another tree than the client")
        if self.printed("show", path, "--strict") != (0 if tree.all_done else 1, str(tree).encode()):
            self.wrong.append(f"{path}: by --strict another status, or another tree")
        status, picture = self.printed("draw", path)
        if status != 0:
            self.wrong.append(f"{path}: draw has status {status}")
        self.wrong += [f"{path}: {fault}" for fault in faults_in(picture)]


def chosen(tree: ShownTree, jobs: bool, undone: bool) -> str:
    """What is printed of a tree with these choices."""
    kept: list[Shown] = []
    # The level of the last one that was undone or stands above one. The next one of a lower level stands above it.
    last = 0
    for shown in reversed(tree.transactions):
        is_kept = shown.is_undone or shown.level < last
        if is_kept:
            last = shown.level
        if (is_kept or not undone) and (shown.level == 0 or not jobs):
            kept.append(shown)
    return str(ShownTree(tuple(reversed(kept)), tree.summary))


def faults_in(picture: bytes) -> list[str]:
    """What a picture has that none may have."""
    if b"<!" in picture or b"<?" in picture:
        return ["a declaration stands in the picture"]
    try:
        root = xml.fromstring(picture)
    except xml.ParseError as fault:
        return [f"the picture is no XML: {fault}"]
    found: list[str] = []
    if root.tag != f"{SPACE}svg":
        found.append(f"the picture is {root.tag}")
    for element in root.iter():
        if element.tag.removeprefix(SPACE) not in ELEMENTS:
            found.append(f"an element {element.tag} stands in the picture")
        for name, value in [*element.attrib.items(), ("", element.text if element.tag == f"{SPACE}style" else "")]:
            fetched = (value or "").replace("url(#", "")
            if name.startswith("on") or "href" in name or "url(" in fetched or "import" in fetched or "://" in fetched:
                found.append(f"{element.tag} has {name} {value}")
    return found


def main() -> int:
    program, *reports = sys.argv[1:]
    looks = Looks(program)
    for path in reports:
        looks.look_at(path)
    most = resource.getrusage(resource.RUSAGE_CHILDREN).ru_maxrss / 1024
    if most > MEGABYTES:
        looks.wrong.append(f"a run took {most:.0f} MB")
    print(f"{len(reports)} reports, the slowest run {looks.slowest:.2f} seconds, the largest {most:.0f} MB")
    for fault in looks.wrong:
        print(fault)
    return 1 if looks.wrong or not reports else 0


if __name__ == "__main__":
    sys.exit(main())
