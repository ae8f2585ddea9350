"""`python3 -m bogrunsi serve` keeps one manager for several processes; `show` and `draw` have the program say what became of a run."""

from __future__ import annotations

import argparse
import logging
import os
import select
import signal
import sys
from types import FrameType

from . import __version__, open
from .errors import Failed
from .server import Server


def main() -> int:
    """Does what the command line asks for, and gives the exit status."""
    words = _words()
    return _serve(words) if words.command == "serve" else _hand_over(words)


def _hand_over(words: argparse.Namespace) -> int:
    """Has the program take the place of this process, so that its output and its exit status are those of this command."""
    options = [f"--{name}" for name in ("jobs", "undone", "strict") if getattr(words, name, False)]
    # Python ignores this signal, and the program would too.
    signal.signal(signal.SIGPIPE, signal.SIG_DFL)
    try:
        os.execvp(words.program, [words.program, words.command, words.file, *options])
    except OSError as fault:
        print(f"bogrunsi: {words.program} cannot be started: {fault}", file=sys.stderr)
    return 1


def _serve(words: argparse.Namespace) -> int:
    """Serves until SIGTERM or SIGINT comes, or the program ends."""
    logging.basicConfig(format="%(asctime)s %(levelname)s %(message)s", level=logging.INFO if words.verbose else logging.WARNING)
    source, to = os.pipe()
    os.set_blocking(to, False)
    signal.set_wakeup_fd(to)
    for number in (signal.SIGTERM, signal.SIGINT):
        signal.signal(number, _told)
    try:
        jobs = open(words.path, program=words.program, timeout=words.timeout, report=words.report, wait=words.wait)
        server = Server(jobs, words.socket)
    except Failed as fault:
        print(f"bogrunsi: {fault}", file=sys.stderr)
        return 1
    print(f"serves {words.path} at {words.socket}", flush=True)
    while not server.failed.is_set() and not select.select([source], [], [], 0.5)[0]:
        pass
    try:
        server.stop(words.grace)
    except Failed as fault:
        print(f"bogrunsi: {fault}", file=sys.stderr)
        return 1
    return 0


def _told(number: int, frame: FrameType | None) -> None:
    """A signal came, which the wake-up pipe tells of."""


def _words() -> argparse.Namespace:
    parser = argparse.ArgumentParser(prog="python3 -m bogrunsi", description=__doc__)
    parser.add_argument("--version", action="version", version=__version__)
    commands = parser.add_subparsers(required=True, dest="command")
    serve = commands.add_parser("serve", help="serves a database at a socket")
    serve.add_argument("path", help="the database")
    serve.add_argument("--socket", required=True, help="the path of the socket, which belongs to its user alone")
    serve.add_argument("--program", default="tx", help="the path of the program")
    serve.add_argument("--report", help="where the report is written as it grows; those of later runs have .2, .3 and so on behind it")
    serve.add_argument("--timeout", type=float, help="how many seconds a call waits for a lock, unless its client says so")
    serve.add_argument("--wait", type=float, default=10.0, help="how many seconds a database that is held is waited for")
    serve.add_argument("--grace", type=float, default=5.0, help="how many seconds jobs at hand get at the end")
    serve.add_argument("--verbose", action="store_true", help="tells of runs and of clients that end")
    show = commands.add_parser("show", help="prints what became of each transaction of a report")
    show.add_argument("--jobs", action="store_true", help="prints top-level transactions alone")
    show.add_argument("--undone", action="store_true", help="prints what was undone, and what is above it")
    show.add_argument("--strict", action="store_true", help="ends with status 1 where not all was done")
    draw = commands.add_parser("draw", help="prints a picture of a report, as SVG")
    for command in (show, draw):
        command.add_argument("file", help="the report of a run that has ended")
        command.add_argument("--program", default="tx", help="the path of the program")
    return parser.parse_args()


if __name__ == "__main__":
    sys.exit(main())
