#!/usr/bin/env python3
"""Bounds of responses, slowly: each number of units is tried, from 1 up.

    slow_responses.py respond ROWS     prints a line a row, as `scj respond` does
    slow_responses.py confirm ROWS     prints `yes` or `no`, by the bounds that the rows claim

It was written from the pages, apart from `scj`. ROWS is a file as docs/RESPONSE.md has it; a file that isn't one isn't
refused here.
"""
import sys
import tomllib


def block(rows, row):
    """The longest section of a less urgent row whose ceiling reaches the row."""
    return max(
        (other["section"] for other in rows if other["priority"] < row["priority"] <= other["ceiling"]), default=0
    )


def other_work(rows, place, units):
    """What the other rows that are at least as urgent may ask for in so many units."""
    return sum(
        -(-units // other["gap"]) * other["cost"]
        for at, other in enumerate(rows)
        if at != place and other["priority"] >= rows[place]["priority"]
    )


def demand(rows, place, units):
    return block(rows, rows[place]) + rows[place]["cost"] + other_work(rows, place, units)


def least(rows, place):
    """The least number of units that serves the row, or None."""
    for units in range(1, rows[place]["gap"] + 1):
        if demand(rows, place, units) <= units:
            return units
    return None


class TooLong(Exception):
    """A search took more steps than were allowed."""


def climbed(rows, place, steps=2000):
    """The same for large numbers: from units that don't serve it goes on to the demand in them, since what is asked for
    in more units isn't less."""
    units = 1
    for _ in range(steps):
        asked = demand(rows, place, units)
        if asked <= units:
            return units
        if asked > rows[place]["gap"]:
            return None
        units = asked
    raise TooLong


def respond(rows, search=least):
    for place, row in enumerate(rows):
        units = search(rows, place)
        if units is None:
            yield f"{place + 1} none"
        else:
            yield (
                f"{place + 1} bound {units} block {block(rows, row)} own {row['cost']} "
                f"other {other_work(rows, place, units)}"
            )


def confirm(rows):
    for place, row in enumerate(rows):
        claimed = row.get("bound", 0)
        if claimed and not (claimed <= row["gap"] and demand(rows, place, claimed) <= claimed):
            return "no"
    return "yes"


def main():
    if len(sys.argv) != 3 or sys.argv[1] not in ("respond", "confirm"):
        sys.exit(__doc__)
    with open(sys.argv[2], "rb") as file:
        rows = tomllib.load(file)["handler"]
    print("\n".join(respond(rows)) if sys.argv[1] == "respond" else confirm(rows))


if __name__ == "__main__":
    main()
