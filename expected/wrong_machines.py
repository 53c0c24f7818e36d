#!/usr/bin/env python3
"""Tells whether the runs of crates/scj_tables would show a machine that is wrong in one way.

    wrong_machines.py            tries each wrong machine, and says which no run shows; then the status is 1
    wrong_machines.py --names    tells of each by which run it is shown

Each wrong machine is the slow machine with one thing turned: the order of two faults, a place, a test that is left out,
a number that isn't wrapped. It is shown by the first run in the table whose trace it prints otherwise. The runs of
small_runs.py stand first there.
"""
import collections
import multiprocessing
import sys
import tomllib

import phrases
import slow_machine
import table_files
from slow_machine import FRAMES, HANDLERS, PRIORITIES, Fault, Frame, Machine, Program, Thing
from wrong_turns import TURNS, on

# ---- the machines


def first_of(order, tests):
    """The fault that is tested first in this order."""
    for name in order:
        if tests[name]():
            raise Fault(name)


def entering(*order):
    """ENTER with its faults in another order."""
    class Wrong(Machine):
        def do_enter(self, job, frame, about):
            runnable, size = frame.operands.pop(), frame.operands.pop()
            scope = None if runnable is None else self.rules.chain_scope(runnable.kind)
            reserved = sum(a.reserved() for a in self.areas if a.is_open) + (size + 7) // 8 * 8
            first_of(order, {
                "NullPointer": lambda: runnable is None,
                "NegativeSize": lambda: size < 0,
                "ScopedCycle": lambda: any(area.scope == scope for area in job.areas),
                "DepthFull": lambda: len(job.frames) == FRAMES,
                "StoreFull": lambda: reserved > self.plan["store"]})
            area = self.open(job, scope, size)
            self.push_frame(job, Frame(self.of_run(runnable), runnable, area, opened=area))
    return Wrong


def calling(*order):
    """CALL with its faults in another order."""
    class Wrong(Machine):
        def do_call(self, job, frame, method):
            this = frame.operands[-1 - len(method.params)]
            node = self.rules.method_of(this.kind, method.name).node if this is not None else None
            first_of(order, {
                "NullPointer": lambda: this is None,
                "DepthFull": lambda: len(job.frames) == FRAMES,
                "CeilingViolation": lambda: node is not None and node.flags.sync and job.priority > this.ceiling})
            Machine.do_call(self, job, frame, method)
    return Wrong


def executing(*order):
    """EXECUTEIN with its faults in another order, or without one of them."""
    class Wrong(Machine):
        def do_executein(self, job, frame, about):
            runnable, thing = frame.operands.pop(), frame.operands.pop()
            first_of(order, {"NullPointer": lambda: runnable is None or thing is None,
                             "DepthFull": lambda: len(job.frames) == FRAMES})
            job.frames.append(Frame(self.of_run(runnable), runnable, thing.area))
    return Wrong


def registering(*order):
    """REGISTER with its faults in another order."""
    class Wrong(Machine):
        def do_register(self, job, frame, about):
            thing = frame.operands[-1]
            is_known = any(handler.thing is thing for handler in self.registry)
            first_of(order, {
                "NullPointer": lambda: thing is None,
                "NotInitializing": lambda: self.phase != "initialisation" or job is not self.sequencer,
                "TooManyHandlers": lambda: not is_known and len(self.registry) == HANDLERS})
            Machine.do_register(self, job, frame, about)
    return Wrong


def ceiling(*order):
    """SETCEILING with its faults in another order."""
    class Wrong(Machine):
        def do_setceiling(self, job, frame, about):
            priority, thing = frame.operands[-1], frame.operands[-2]
            first_of(order, {
                "NullPointer": lambda: thing is None, "BadPriority": lambda: priority not in PRIORITIES,
                "NotInitializing": lambda: job is not self.sequencer})
            Machine.do_setceiling(self, job, frame, about)
    return Wrong


def taking(*order):
    """PARAMS with its faults in another order."""
    class Wrong(Machine):
        def do_params(self, job, frame, above):
            numbers = frame.operands
            times = numbers[1:-1]

            def is_bad():
                return times and (any(m < 0 for m in times[::2])
                                  or any(n not in range(0, 1000000, 1000) for n in times[1::2]))
            first_of(order, {"BadPriority": lambda: numbers[0] not in PRIORITIES, "BadPeriod": is_bad,
                             "NegativeSize": lambda: numbers[-1] < 0})
            Machine.do_params(self, job, frame, above)
    return Wrong


class DeepConstruct(Machine):
    def do_construct(self, job, frame, c):
        values = self.pop_arguments(frame, self.rules.ctor_params(c))
        local_values = dict(zip(self.rules.ctor_params(c), values))
        job.frames.append(Frame(self.program.of_constructor(c), frame.operands[-1], frame.area, local_values))


class DeepSuper(Machine):
    def do_super(self, job, frame, c):
        values = self.pop_arguments(frame, self.rules.ctor_params(c))
        local_values = dict(zip(self.rules.ctor_params(c), values))
        job.frames.append(Frame(self.program.of_constructor(c), frame.operands.pop(), frame.area, local_values))


class IndexBeforeNull(Machine):
    def element(self, array, index):
        if index < 0:
            raise Fault("ArrayIndex")
        return Machine.element(self, array, index)

    def do_elem(self, job, frame, about):
        index, array = frame.operands.pop(), frame.operands.pop()
        at = self.element(array, index)
        frame.operands.append(array.slots[at])

    def do_putelem(self, job, frame, about):
        value, index, array = frame.operands.pop(), frame.operands.pop(), frame.operands.pop()
        at = self.element(array, index)
        array.slots[at] = value


def placing(word, place_of):
    """The last operation of a node, which is of this kind, at another place."""
    class Elsewhere(Program):
        def of(self, e):
            operations = Program.of(self, e)
            if operations and operations[-1].word == word and e.kind not in ("paren",) and place_of(e) is not None:
                operations[-1] = operations[-1]._replace(place=place_of(e))
            return operations

        def of_assignment(self, s):
            operations = Program.of_assignment(self, s)
            if operations[-1].word == word:
                operations[-1] = operations[-1]._replace(place=place_of(s))
            return operations
    return on(Elsewhere)


def first_lexeme(e):
    """Where a node begins."""
    below = {"access": "obj", "element": "arr", "call": "obj", "assign": "target"}.get(e.kind)
    inner = getattr(e, below) if below else None
    if e.kind == "binary":
        inner = e.l
    return first_lexeme(inner) if inner is not None else e.pos


def class_name(e):
    return e.npos if e.kind in ("new", "newarray") else None


def same(are_same):
    """SAME with another test of two objects, each of which may be null."""
    class Wrong(Machine):
        def do_same(self, job, frame, about):
            second, first = frame.operands.pop(), frame.operands.pop()
            frame.operands.append(are_same(first, second))
    return Wrong


class DropsByHandler(Machine):
    def do_terminate(self, job, frame, about):
        self.releases.sort(key=lambda r: r.handler.number)
        Machine.do_terminate(self, job, frame, about)


class StaleReading(Machine):
    def reading(self, port):
        rows = [row for row in self.plan.get("reading", []) if row["port"] == port and row["at"] < self.unit]
        return max(rows, key=lambda row: row["at"])["value"] if rows else 0


class FirstReading(Machine):
    def reading(self, port):
        self.read = getattr(self, "read", {})
        return self.read.setdefault(port, Machine.reading(self, port))


class EarlierRow(Machine):
    def reading(self, port):
        rows = [row for row in self.plan.get("reading", []) if row["port"] == port and row["at"] <= self.unit]
        return max(rows, key=lambda row: row["at"])["value"] if rows else 0


class Unwrapped(Machine):
    def do_bin(self, job, frame, operator):
        right, left = frame.operands[-1], frame.operands[-2]
        Machine.do_bin(self, job, frame, operator)
        if operator == "/" and right == -1:
            frame.operands[-1] = -left


class ShortSizes(Machine):
    def do_allocarray(self, job, frame, element):
        length = frame.operands.pop()
        if length < 0:
            raise Fault("NegativeSize")
        self.take_bytes(frame.area, max(slow_machine.wrapped(8 * (2 + length)), 0))
        slots = collections.defaultdict(lambda: slow_machine.blank(element))
        frame.operands.append(Thing(element + "[]", frame.area, slots, length))


class PrioAtFaults(Machine):
    def finish(self, release):
        if release.priority != release.handler.priority:
            self.tell("prio %d %d" % (release.handler.number, release.handler.priority))
        Machine.finish(self, release)


class EndsAnyMission(Machine):
    def do_terminate(self, job, frame, about):
        if frame.operands[-1] is not None:
            frame.operands[-1] = self.mission
        Machine.do_terminate(self, job, frame, about)


WRONG = {
    # of two faults the other one first
    "ENTER: NegativeSize before NullPointer": entering(
        "NegativeSize", "NullPointer", "ScopedCycle", "DepthFull", "StoreFull"),
    "ENTER: ScopedCycle before NegativeSize": entering(
        "NullPointer", "ScopedCycle", "NegativeSize", "DepthFull", "StoreFull"),
    "ENTER: DepthFull before ScopedCycle": entering(
        "NullPointer", "NegativeSize", "DepthFull", "ScopedCycle", "StoreFull"),
    "ENTER: StoreFull before DepthFull": entering(
        "NullPointer", "NegativeSize", "ScopedCycle", "StoreFull", "DepthFull"),
    "CALL: DepthFull before NullPointer": calling("DepthFull", "NullPointer", "CeilingViolation"),
    "CALL: CeilingViolation before DepthFull": calling("NullPointer", "CeilingViolation", "DepthFull"),
    "EXECUTEIN: DepthFull before NullPointer": executing("DepthFull", "NullPointer"),
    "REGISTER: NotInitializing before NullPointer": registering("NotInitializing", "NullPointer", "TooManyHandlers"),
    "REGISTER: TooManyHandlers before NullPointer": registering("TooManyHandlers", "NullPointer", "NotInitializing"),
    "REGISTER: TooManyHandlers before NotInitializing": registering(
        "NullPointer", "TooManyHandlers", "NotInitializing"),
    "SETCEILING: BadPriority before NullPointer": ceiling("BadPriority", "NullPointer", "NotInitializing"),
    "SETCEILING: NotInitializing before BadPriority": ceiling("NullPointer", "NotInitializing", "BadPriority"),
    "PARAMS: BadPeriod before BadPriority": taking("BadPeriod", "BadPriority", "NegativeSize"),
    "PARAMS: NegativeSize before BadPeriod": taking("BadPriority", "NegativeSize", "BadPeriod"),
    "ELEM: a negative index before NullPointer": IndexBeforeNull,
    # a test less
    "CONSTRUCT: no DepthFull": DeepConstruct,
    "SUPER: no DepthFull": DeepSuper,
    "EXECUTEIN: no DepthFull": executing("NullPointer"),
    # another test
    "SAME: null lies in one area with null": same(lambda a, b: (a and a.area) is (b and b.area)),
    "SAME: null lies in each area": same(lambda a, b: a is None or b is None or a.area is b.area),
    "SAME: an object alone lies in its area": same(lambda a, b: a is not None and a is b),
    "SAME: all objects lie in one area": same(lambda a, b: a is not None and b is not None),
    # another place
    "ELEM at the array": placing("ELEM", first_lexeme),
    "PUTELEM at the array": placing("PUTELEM", first_lexeme),
    "GET at the object": placing("GET", first_lexeme),
    "LENGTH at the object": placing("LENGTH", first_lexeme),
    "PUT at the object": placing("PUT", first_lexeme),
    "CALL at the object": placing("CALL", first_lexeme),
    "BIN at the left operand": placing("BIN", first_lexeme),
    "CONSTRUCT at the class's name": placing("CONSTRUCT", class_name),
    "ALLOCARRAY at the element's name": placing("ALLOCARRAY", class_name),
    # another order, or another time
    "drops in the order of the handlers": DropsByHandler,
    "a reading of the unit before": StaleReading,
    "a port that keeps its first value": FirstReading,
    "of two rows of one unit the earlier one": EarlierRow,
    "prio is told at a fault": PrioAtFaults,
    "requestTermination ends any mission": EndsAnyMission,
    # a number that isn't wrapped, or is
    "the least number divided by -1": Unwrapped,
    "the bytes of an array in 32 bits": ShortSizes,
} | TURNS


# ---- the runs


def table():
    """The runs of the table: the name, the files, the plan and the lines of each."""
    told, name = {}, None
    for line in table_files.read("stdout", "runs").splitlines():
        if line.startswith("== "):
            name = line[3:]
            told[name] = []
        elif not line.startswith("status "):
            told[name].append(line)
    runs = []
    for case in table_files.read("stdin", "runs").split("\n== ")[1:]:
        name, *files = ("\n" + case).split("\n-- ")
        files = [file.split("\n", 1) for file in files]
        texts = [phrases.whole(text.removesuffix("\n") + "\n") for _, text in files]
        runs.append((name[1:], [file for file, _ in files[:-1]], texts[:-1], tomllib.loads(texts[-1]), told[name[1:]]))
    return runs


def shown_by(wrong):
    """The name of the first run whose trace the wrong machine prints otherwise, or None."""
    for name, files, texts, plan, told in RUNS:
        machine = WRONG[wrong](files, texts, plan)
        try:
            lines = machine.run()
        except (ArithmeticError, AttributeError, LookupError, TypeError, ValueError):
            return name + ", in which it is stuck"
        if lines != told:
            return name
    return None


RUNS = []


def main():
    RUNS.extend(table())
    with multiprocessing.Pool() as pool:
        shown = dict(zip(WRONG, pool.map(shown_by, WRONG, chunksize=1)))
    for wrong, run in shown.items():
        if run is None:
            print("wrong_machines.py: no run shows this: %s" % wrong)
        elif sys.argv[1:] == ["--names"]:
            print("%-50s %s" % (wrong, run))
    sys.exit(1 if None in shown.values() else 0)


if __name__ == "__main__":
    main()
