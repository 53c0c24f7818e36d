#!/usr/bin/env python3
"""Tries bounds of memory: makes programs, compares what a program answers with slow_bounds.py, and has it run them.

    bounds_come.py PROGRAM            2,000 programs by bounds_texts.py; PROGRAM is called as `./scj` is
    bounds_come.py PROGRAM NUMBER     so many of them
    bounds_come.py slow NUMBER        the same with the slow machine in the place of a program

Each is run by ten plans, with fires and readings from a random source: as it stands; with each storage and each size
that suffices cut down to what is needed; and then with a store as large as is told. No release of a class with `yes` may
find its memory full, and none may lack store. Then each of these storages and sizes is made a byte shorter, one after the
other: it has to be told of, and in how many of these programs a plan finds the memory full is counted. What the counts
are is printed, and each answer and run that is another one; the exit status is then 1, as it is where fewer than half of
the short sizes are shown. It is no part of the gate.
"""
import collections
import multiprocessing
import pathlib
import random
import re
import subprocess
import sys
import tempfile

import bounds_texts
import slow_bounds
import slow_machine

NAME = "G.java"
SEED = 20261202
PROGRAMS = 2000
PLANS = 10


class Slow:
    """The slow versions."""

    def bounds(self, text):
        return slow_bounds.lines([NAME], [text])

    def run(self, text, plan):
        return slow_machine.Machine([NAME], [text], plan).run()


class Called:
    """A program, called in a folder of its own."""

    def __init__(self, program):
        self.program = program
        self.folder = tempfile.TemporaryDirectory()

    def put(self, name, text):
        (pathlib.Path(self.folder.name) / name).write_text(text)

    def call(self, *words):
        return subprocess.run([self.program, *words], cwd=self.folder.name, capture_output=True, text=True).stdout.splitlines()

    def bounds(self, text):
        self.put(NAME, text)
        return self.call("bounds", NAME)

    def run(self, text, plan):
        self.put(NAME, text)
        self.put("plan.toml", toml(plan))
        return self.call("run", "--plan", "plan.toml", NAME)


def toml(plan):
    lines = [f"{key} = {value}" for key, value in plan.items() if isinstance(value, int)]
    for key in "fire", "reading":
        for row in plan[key]:
            lines += [f"[[{key}]]"] + [f'{name} = "{value}"' if isinstance(value, str) else f"{name} = {value}" for name, value in row.items()]
    return "".join(line + "\n" for line in lines)


def found_full(lines):
    """Which faults of memory ended releases of which classes: the end of a release stands behind its fault."""
    classes, fault = {}, None
    for line in lines:
        unit, word, *rest = line.split(" ")
        if word == "register":
            classes[rest[0]] = rest[1]
        elif word == "fault":
            fault = (unit, rest[0])
        elif word == "end" and fault and fault[0] == unit and fault[1] in ("MemoryFull", "StoreFull"):
            yield fault[1], classes[rest[0]]


def replaced(text, numbers):
    """The text with these numbers at these places."""
    lines = text.split("\n")
    for (_, line, column), number in sorted(numbers.items(), reverse=True):
        before, behind = lines[line - 1][: column - 1], lines[line - 1][column - 1 :]
        lines[line - 1] = before + re.sub(r"^\d+", str(number), behind)
    return "\n".join(lines)


def tight(bounds):
    """The place of each storage and size of a class that suffices, with the least number that does."""
    found = {}
    for c in bounds.handlers():
        if bounds.answer(c)[0] is not None:
            continue
        body = bounds.handler_body(c)
        found[bounds.storage(c).pos] = bounds.need_of_body(body)
        for other in bounds.reached([body]):
            for node in bounds.nodes(other):
                if bounds.memory_call(node) == "enterPrivateMemory":
                    found[node.args[0].pos] = bounds.greatest(bounds.targets_entered(node))
    return found


class Case:
    """A program with ten plans."""

    def __init__(self, tried, number):
        chance = random.Random(SEED + number)
        self.tried, self.number = tried, number
        self.text = bounds_texts.text(chance)
        handlers = [c.name for c in self.asked(self.text).handlers()]
        self.plans = [bounds_texts.plan(chance, handlers) for _ in range(PLANS)]
        self.counts, self.others = collections.Counter(), []

    def asked(self, text):
        return slow_bounds.Bounds(slow_machine.Program([text]))

    def told(self, what, text):
        """What is told of the classes, and of the store; it has to be what the slow version says."""
        lines = self.tried.bounds(text)
        wanted = slow_bounds.lines([NAME], [text])
        self.counts["answers compared"] += 1
        if lines != wanted:
            self.others.append(f"program {self.number}, {what}: {lines} in place of {wanted}")
        rows = [line.split(" ") for line in wanted[:-1]]
        need = wanted[-1].split(" ")[1]
        return {row[0]: row[2] if row[1] == "no" else "yes" for row in rows}, None if need == "none" else int(need)

    def runs(self, text, store):
        for plan in self.plans:
            self.counts["runs"] += 1
            yield set(found_full(self.tried.run(text, {**plan, "store": store})))

    def holds(self, what, text, told, store=None):
        """No class with `yes` finds its memory full; where a store is given, none lacks it."""
        for full in self.runs(text, store or bounds_texts.PLAN["store"]):
            for fault, name in full:
                if fault == "MemoryFull" and told[name] == "yes" or fault == "StoreFull" and store:
                    self.others.append(f"program {self.number}, {what}: {fault} by {name}")

    def look(self):
        told, _ = self.told("as it stands", self.text)
        self.counts.update(told.values())
        self.holds("as it stands", self.text, told)
        least = tight(self.asked(self.text))
        if not least:
            return
        text = replaced(self.text, least)
        told, need = self.told("cut down", text)
        self.holds("cut down", text, told)
        if need is not None:
            self.counts["stores tried"] += 1
            self.holds("by the store that is told", text, told, need)
        for place, number in least.items():
            if number:
                self.shorten(replaced(self.text, {**least, place: number - 1}))

    def shorten(self, text):
        told, _ = self.told("a byte short", text)
        small = {name for name, answer in told.items() if answer == "TooSmall"}
        self.counts["sizes a byte short"] += 1
        if not small:
            self.others.append(f"program {self.number} is told of no size that is too small")
        for full in self.runs(text, bounds_texts.PLAN["store"]):
            if any(fault == "MemoryFull" and name in small for fault, name in full):
                self.counts["short sizes that a run shows"] += 1
                return


def looked(of):
    program, number = of
    case = Case(Slow() if program == "slow" else Called(program), number)
    case.look()
    return case.counts, case.others


def main():
    if not 2 <= len(sys.argv) <= 3:
        sys.exit(__doc__)
    program = sys.argv[1] if sys.argv[1] == "slow" else str(pathlib.Path(sys.argv[1]).resolve())
    number = int(sys.argv[2]) if len(sys.argv) > 2 else PROGRAMS
    counts, others = collections.Counter(), 0
    with multiprocessing.Pool(4) as pool:
        for some, wrong in pool.imap(looked, [(program, n) for n in range(number)], 4):
            counts += some
            others += len(wrong)
            for line in wrong:
                print(line)
    print(f"{number} programs; " + ", ".join(f"{what} {count}" for what, count in sorted(counts.items())))
    print(f"{others} are others")
    shown, short = counts["short sizes that a run shows"], counts["sizes a byte short"]
    sys.exit(1 if others or 2 * shown < short else 0)


if __name__ == "__main__":
    main()
