"""Trips that eight threads book over shared stock.

    python3 bookings.py PROGRAM DATABASE [TRIPS]

A trip is a job of three parts: a flight, a bed in one of two hotels, and a car. A hotel that is full undoes its own part, and the other one is
tried. A trip that cannot be had is undone as a whole, and takes nothing. At the end what was taken and what is left is what there was.
"""

from __future__ import annotations

import random
import sys
import threading
from itertools import count

import bogrunsi

STOCK = {"flight.north": 60, "flight.south": 60, "hotel.old": 40, "hotel.new": 50, "car.small": 100}


class SoldOut(Exception):
    """Nothing is left of what was wanted."""


def take(job: bogrunsi.Transaction, what: str) -> None:
    """Takes one, in a part of its own."""
    for attempt in job.tries():
        with attempt as part:
            if part.add(f"left.{what}", -1) < 0:
                raise SoldOut(what)
            part.add(f"taken.{what}", 1)


def book(jobs: bogrunsi.Jobs, flight: str, hotels: list[str]) -> bool:
    """Books a trip, and says whether it could be had."""
    try:
        for attempt in jobs.tries():
            with attempt as job:
                take(job, flight)
                try:
                    take(job, hotels[0])
                except SoldOut:
                    take(job, hotels[1])
                take(job, "car.small")
                job.add("trips", 1)
        return True
    except SoldOut:
        return False


def main() -> None:
    program, database = sys.argv[1:3]
    trips = int(sys.argv[3]) if len(sys.argv) > 3 else 150
    booked = []
    with bogrunsi.open(database, program=program, timeout=30.0) as jobs:
        with jobs.begin() as job:
            for what, number in STOCK.items():
                job.set(f"left.{what}", number)
        numbers = count()

        def agent() -> None:
            while next(numbers) < trips:
                hotels = random.sample(["hotel.old", "hotel.new"], 2)
                booked.append(book(jobs, random.choice(["flight.north", "flight.south"]), hotels))

        threads = [threading.Thread(target=agent) for _ in range(8)]
        for thread in threads:
            thread.start()
        for thread in threads:
            thread.join()
        table = jobs.table
    for what, number in STOCK.items():
        assert table.get(f"taken.{what}", 0) + table[f"left.{what}"] == number and table[f"left.{what}"] >= 0
    assert table["trips"] == sum(booked) == table["taken.car.small"]
    print(f"{len(booked)} trips were asked for, and {sum(booked)} booked")


if __name__ == "__main__":
    main()
