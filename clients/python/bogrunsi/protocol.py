"""The lines between a server and its clients. PROTOCOL.md has them in words."""

from __future__ import annotations

from .errors import Error, Failed, Full, NotTaken, Overflow, Refused, Stuck, TimedOut, Undone

#: What the server says first, with the word by which other connections join this one.
GREETING = "bogrunsi 1"
#: No request has more bytes, its line feed counted.
MOST_BYTES = 1024
#: No name, where one may be given.
NOTHING = "-"


def spelled(fault: Exception) -> str:
    """The reply that tells of an exception."""
    match fault:
        case TimedOut():
            return f"late {fault.name}"
        case Undone():
            return f"undone {fault.name}"
        case Refused():
            return f"refused {fault.cause}"
        case Overflow():
            return "overflow"
        case Stuck():
            return "stuck"
        case Full():
            return f"full {_one_line(fault)}"
        case NotTaken():
            return f"kind {fault.kind}"
        case ValueError() | TypeError():
            return f"wrong {_one_line(fault)}"
    return f"failed {_one_line(fault)}"


def _one_line(fault: Exception) -> str:
    return " ".join(str(fault).split()) or type(fault).__name__


def read(reply: str) -> str | int | None:
    """What a reply says: a number, a name, or nothing. The other replies are exceptions."""
    head, _, tail = reply.partition(" ")
    match head:
        case "ok" | "none":
            return None
        case "value" | "new" | "rows" | "report":
            return int(tail)
        case "begun" | "remaining":
            return tail
        case "wrong":
            raise ValueError(tail)
    raise _fault_of(head, tail)


def _fault_of(head: str, tail: str) -> Error:
    match head:
        case "late":
            return TimedOut(tail)
        case "undone":
            return Undone(tail)
        case "refused":
            return Refused(tail)
        case "overflow":
            return Overflow()
        case "stuck":
            return Stuck()
        case "full":
            return Full(tail)
        case "kind":
            return NotTaken(tail)
        case "failed":
            return Failed(tail)
    return Failed(f"the server's reply {head!r} is none that is known")


def options(words: list[str]) -> dict[str, str]:
    """The options behind a `begin`: `alone`, and words with `=`. Each is there once."""
    found: dict[str, str] = {}
    for word in words:
        name, _, value = word.partition("=")
        if name not in ("timeout", "alone", "calls", "who") or name in found or (name != "alone") != ("=" in word):
            raise ValueError(f"{word!r} is no option of begin")
        found[name] = value
    return found
