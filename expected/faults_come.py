#!/usr/bin/env python3
"""Runs programs on the slow machine, and looks at each operation at which a fault is certain whether it ends so.

    faults_come.py            the programs of faults/, and those of the table `runs`, each with two literals replaced
    faults_come.py NUMBER     no more than so many of the table

The certain faults are those of slow_faults.py. It prints how many operations at such places were come to, by the fault,
and each that ended otherwise; the exit status is then 1. It is no part of the gate.
"""
import collections
import pathlib
import random
import sys
import tomllib

import compare_modes
import slow_faults
import slow_machine

HERE = pathlib.Path(__file__).resolve().parent
SEED = 20261202
PLAN = {"version": 1, "units": 3000, "store": 65536}


class Watched(slow_machine.Machine):
    """A machine that looks at what comes of the operations at places with a certain fault."""

    def __init__(self, names, texts, plan):
        super().__init__(names, texts, plan)
        self.certain = dict(slow_faults.faults(texts))
        self.come, self.otherwise = collections.Counter(), []

    def operate(self, job):
        place = None
        if job.frames:
            operation = job.frames[-1].rest[0]
            place = tuple(operation.place) if operation.word in slow_faults.FAULTING else None
        told = len(self.lines)
        super().operate(job)
        fault = self.certain.get(place)
        if fault is not None:
            line = "%d fault %s %s:%d" % (self.unit, fault, self.names[place[0]], place[1])
            self.come[fault] += 1
            if line not in self.lines[told:]:
                self.otherwise.append((place, fault, self.lines[told:]))


def programs(most):
    for path in sorted((HERE / "faults").glob("*.java")):
        yield path.name, {path.name: path.read_text()}, PLAN
    chance = random.Random(SEED)
    for number, (name, files, plan, _) in enumerate(compare_modes.cases()):
        if number == most:
            return
        compare_modes.replace_literals(chance, files)
        yield name, files, tomllib.loads(plan)


def main():
    most = int(sys.argv[1]) if len(sys.argv) > 1 else None
    ran, come, others = 0, collections.Counter(), 0
    for name, files, plan in programs(most):
        names = sorted(files)
        try:
            machine = Watched(names, [files[file] for file in names], plan)
            machine.run()
        except (slow_machine.Refused, StopIteration, SyntaxError):
            continue
        ran += 1
        come += machine.come
        for what in machine.otherwise:
            others += 1
            print(name, *what)
    counts = ", ".join("%s %d" % pair for pair in sorted(come.items()))
    print("%d programs were run; %d operations at certain faults: %s; %d ended otherwise"
          % (ran, sum(come.values()), counts, others))
    sys.exit(1 if others else 0)


if __name__ == "__main__":
    main()
