"""How names, keys, numbers and replies are spelled."""

from __future__ import annotations

import operator
import re
from itertools import count
from random import SystemRandom

from .errors import Failed, Overflow, Refused, Stuck, Undone

LABEL = re.compile(r"[a-z0-9]{1,16}")
LEAST = -(2**63)
GREATEST = 2**63 - 1

_WORD = re.compile(r"[!-~]+")


def word(text: str) -> str:
    """The text, which is to be one word of a request: a space or a line feed in it would make another request of it."""
    if not _WORD.fullmatch(text):
        raise ValueError(f"{text!r} is not one word of a request")
    return text


def label(text: str) -> str:
    """The text, which is to be one label of a name."""
    if not LABEL.fullmatch(text):
        raise ValueError(f"{text!r} is no label: 1 to 16 bytes of a-z and 0-9 are wanted")
    return text


def number(value: int) -> int:
    """The value, which is to be a whole number of 64 bits. A number with a fraction, a text or a bool is refused."""
    if type(value) is not int:
        if isinstance(value, bool):
            raise TypeError("a bool is no value: write int(...) where 0 or 1 is meant")
        value = operator.index(value)
    if not LEAST <= value <= GREATEST:
        raise ValueError(f"{value} does not fit 64 bits")
    return value


def value_of(reply: str) -> int | None:
    """What a reply says: a number, or none. The exceptions are the replies by which nothing was done."""
    if reply == "ok" or reply == "none":
        return None
    head, _, tail = reply.partition(" ")
    if head == "value" or head == "new":
        return int(tail)
    if head == "orphan":
        raise Undone(tail)
    if head == "refused":
        raise Refused(tail)
    if reply == "overflow":
        raise Overflow
    if reply == "stuck":
        raise Stuck
    raise Failed(f"the reply {reply!r} is none that is known")


class Labels:
    """Labels that the client makes. Each has a number of its own behind a random beginning, so that none is made twice, and
    none is one that a caller has chosen."""

    def __init__(self) -> None:
        self._numbers = count(SystemRandom().randrange(2**34, 2**35))

    def behind(self, base: str) -> str:
        """A new label, whose first bytes are those of the base."""
        return f"{base[:6]}z{next(self._numbers):x}"
