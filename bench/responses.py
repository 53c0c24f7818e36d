#!/usr/bin/env python3
"""Times `respond` and `confirm` on tables of 64 rows that make the search for a bound long.

    bench/responses.py [PROGRAM]     PROGRAM is called as ./scj is, which is the default

It prints milliseconds, the least of nine calls each, of the whole process. The status is 1 where `respond` takes more
than 50 or `confirm` more than 10.
"""
import os
import random
import re
import subprocess
import sys
import tempfile
import time

ROWS = 64
RESPOND, CONFIRM = 50.0, 10.0
# Costs and gaps of a load that is whole but for 15 millionths, the most urgent rows first.
NEAR = ((9, 200), (4, 176), (1, 67), (1, 62), (1, 17), (3, 188), (3, 99), (2, 57), (1, 176), (4, 88), (3, 73), (1, 118),
        (4, 194), (4, 99), (1, 78), (1, 141), (1, 26), (6, 176), (2, 135), (1, 195), (1, 196), (1, 50), (6, 134), (2, 44),
        (5, 115), (3, 68), (1, 6), (2, 110), (1, 195), (7, 145), (2, 87), (1, 83), (3, 281))  # fmt: skip


def with_others(urgent):
    """These rows under falling priorities, and below them rows of one operation each, 64 in all."""
    rows = [(28 - place * 20 // len(urgent), cost, gap) for place, (cost, gap) in enumerate(urgent)]
    return rows + [(1 + place % 7, 1, 10_000_000 - place) for place in range(ROWS - len(rows))]


def spread(place):
    """Priorities from 28 down to 2, again and again."""
    return 28 - place % 27


def families():
    """Tables by their names: rows of priority, cost and gap."""
    last = lambda place: 1 if place == ROWS - 1 else 28
    chance = random.Random(20261201)
    return {
        "a load of 1": [(last(i), 156_250, 10_000_000) for i in range(ROWS)],
        "just below 1": [(last(i), 156_249, 10_000_000) for i in range(ROWS)],
        "gaps 2, 4, 8 .. 2^23 of cost 1": [(spread(i), 1, 2 ** (i % 23 + 1)) for i in range(ROWS)],
        "coprime gaps near 10,000,000": [(spread(i), 150_000, 9_999_991 - 7 * i) for i in range(ROWS)],
        "gaps 2, 3, 7, 43, 1811 under falling priorities": [
            (max(28 - i, 1), 1, (2, 3, 7, 43, 1811)[i] if i < 5 else 10_000_000) for i in range(ROWS)
        ],
        "33 gaps of 6 to 281, a load of nearly 1": with_others(NEAR),
        "costs and gaps by chance": [
            (28 - min(i // 3, 27), chance.randint(1, 100_000), chance.randint(5_000_000, 10_000_000)) for i in range(ROWS)
        ],
    }


def text_of(rows, bounds):
    text = "version = 1\n"
    for (priority, cost, gap), bound in zip(rows, bounds):
        text += f"[[handler]]\npriority = {priority}\ncost = {cost}\ngap = {gap}\nsection = 0\nceiling = 28\n"
        text += f"bound = {bound}\n"
    return text


def call(program, mode, name):
    """The output, and the least milliseconds of nine calls."""
    least = None
    for _ in range(9):
        begin = time.perf_counter()
        done = subprocess.run([program, mode, "--plan", name], capture_output=True, text=True, check=True)
        taken = 1000 * (time.perf_counter() - begin)
        least = taken if least is None else min(least, taken)
    return done.stdout, least


def main(words):
    home = os.path.dirname(os.path.dirname(os.path.abspath(__file__)))
    if len(words) > 1 or words and words[0].startswith("-"):
        print(__doc__.strip())
        return 0 if words in (["--help"], ["-h"]) else 2
    program, slow = os.path.abspath(words[0]) if words else f"{home}/scj", False
    with tempfile.TemporaryDirectory() as folder:
        for name, rows in families().items():
            path = f"{folder}/rows.toml"
            with open(path, "w", encoding="utf-8") as file:
                file.write(text_of(rows, [0] * ROWS))
            answer, respond = call(program, "respond", path)
            bounds = [int(found[1]) if (found := re.match(r"\d+ bound (\d+)", line)) else 0 for line in answer.splitlines()]
            with open(path, "w", encoding="utf-8") as file:
                file.write(text_of(rows, bounds))
            verdict, confirm = call(program, "confirm", path)
            assert verdict == "yes\n", name
            slow |= respond > RESPOND or confirm > CONFIRM
            print(f"{name}: respond {respond:.1f} ms, confirm {confirm:.1f} ms, {sum(map(bool, bounds))} bounds")
    return 1 if slow else 0


if __name__ == "__main__":
    sys.exit(main(sys.argv[1:]))
