#!/usr/bin/env python3
"""Tries the bounds of `respond` on runs: 500 generated programs, each with the rows that its own run shows.

    bounds_of_runs.py PROGRAM [COUNT]

PROGRAM is called as `./scj` is. For each generated program and plan it prints the trace, `tools/observe` makes rows of
that, and PROGRAM bounds them. When each release becomes ready and when its last operation is done is seen in the slow
machine, whose trace has to be the same. No release may end later than its bound. The bounds are those of
slow_responses.py, and PROGRAM confirms them. What is printed says how many releases end exactly with their bound, among
them some that are blocked and some with work of others before them. The status is 1 where one of this isn't so. It is
no part of the gate.
"""
import pathlib
import random
import re
import subprocess
import sys
import tempfile
import tomllib

sys.dont_write_bytecode = True
import slow_machine
import slow_responses
import small_runs

SEED = 20261202
COUNT = 500
OBSERVE = pathlib.Path(__file__).resolve().parent.parent / "tools" / "observe"
BOUND = re.compile(r"(\d+) (?:none|bound (\d+) block (\d+) own (\d+) other (\d+))")

GATE = """@Scope("M") class Gate { int n;
 @RunsIn(CALLER) synchronized int hold(int a) { while (a > 0) a = a - 1; n = n + 1; return n; } }
"""
HANDLER = """@Scope("M") @DefineScope(name="P%(number)d", parent="M") class H%(number)d extends AperiodicEventHandler {
 Gate g; Gate h;%(field)s
 H%(number)d(Gate a, Gate b%(parameter)s) {
  super(new PriorityParameters(%(priority)d), new AperiodicParameters(), new StorageParameters(0)); g = a; h = b;%(sets)s }
 public void handleAsyncEvent() { %(body)s }
}
"""
TIMED = """@Scope("M") @DefineScope(name="PT", parent="M") class T extends PeriodicEventHandler {
 T() { super(new PriorityParameters(%(priority)d), new PeriodicParameters(new RelativeTime(0, %(start)d000),
   new RelativeTime(1, 0)), new StorageParameters(0)); }
 public void handleAsyncEvent() { %(body)s }
}
"""


def work(chance):
    """A body: loops, and calls of two synchronized methods."""
    parts = ["for (int i = 0; i < %d; i++) { }" % chance.randint(0, 4)]
    parts += ["%s.hold(%d);" % (chance.choice("gh"), chance.randint(0, 6)) for _ in range(chance.randint(0, 2))]
    chance.shuffle(parts)
    return " ".join(parts)


def generated(chance):
    """The files and the plan of a program: two to four handlers that share two gates, and now and then a periodic one."""
    count = chance.randint(2, 4)
    priorities = [chance.randint(5, 18) for _ in range(count)]
    releases_first = count > 1 and chance.random() < 0.2
    parts, registered = [GATE], []
    for number, priority in enumerate(priorities, 1):
        releases = releases_first and number == 2
        parts.append(HANDLER % dict(
            number=number, priority=priority, body=work(chance) + (" o.release();" if releases else ""),
            field=" H1 o;" if releases else "", parameter=", H1 c" if releases else "", sets=" o = c;" if releases else ""))
        registered.append("H%d h%d = new H%d(g, h%s); h%d.register();" % (
            number, number, number, ", h1" if releases else "", number))
    if chance.random() < 0.3:
        body = "for (int i = 0; i < %d; i++) { }" % chance.randint(0, 3)
        parts.append(TIMED % dict(priority=chance.randint(5, 18), start=chance.randint(20, 60), body=body))
        registered.append("new T().register();")
    initialize = "Gate g = new Gate(); Gate h = new Gate(); Services.setCeiling(g, %d); Services.setCeiling(h, %d);\n  %s" % (
        max(priorities), chance.choice([max(priorities), 28]), "\n  ".join(registered))
    # Each round fires the handlers together, or within the time that a release takes.
    fires = []
    for begin in range(400, 400 + 900 * chance.randint(1, 3), 900):
        width = chance.choice([0, 0, 12, 40])
        fires += [(begin + chance.randint(0, width), "H%d" % number) for number in range(1 + releases_first, count + 1)]
    return small_runs.files(*parts, initialize=initialize), small_runs.plan(*sorted(fires), units=3500)


class Watched(slow_machine.Machine):
    """The slow machine, which notes of each release of a handler when it is ready and in which unit it ends."""

    def __init__(self, *run):
        super().__init__(*run)
        self.ready, self.ended, self.is_operating = {}, {}, False

    def operate(self, job):
        self.is_operating = True
        super().operate(job)
        self.is_operating = False

    def arrive(self, handler):
        before = handler.releases
        super().arrive(handler)
        if handler.releases > before:
            self.ready[handler.number, handler.releases] = self.unit + self.is_operating

    def finish(self, release):
        self.ended[release.handler.number, release.number] = self.unit
        super().finish(release)


class Trial:
    """What was found over all programs."""

    def __init__(self, program):
        self.program = str(pathlib.Path(program).resolve())
        self.folder = pathlib.Path(tempfile.mkdtemp())
        self.wrong = self.releases = self.exact = self.blocked = self.delayed = 0

    def complain(self, number, text):
        self.wrong += 1
        print(f"program {number}: {text}")

    def call(self, *words):
        return subprocess.run(words, cwd=self.folder, capture_output=True, text=True, check=False).stdout

    def try_one(self, number, files, plan):
        names = [name for name, _ in files]
        for name, text in [*files, ("plan.toml", plan)]:
            (self.folder / name).write_text(text)
        machine = Watched(names, [text for _, text in files], tomllib.loads(plan))
        lines = machine.run()
        trace = self.call(self.program, "run", "--plan", "plan.toml", *names)
        if trace.splitlines() != lines:
            self.complain(number, "its trace is another one")
        (self.folder / "trace").write_text(trace)
        rows = self.call(str(OBSERVE), "plan.toml", "trace", *names)
        if not rows:
            return False
        self.compare(number, machine, rows)
        return True

    def compare(self, number, machine, rows):
        (self.folder / "rows.toml").write_text(rows)
        answer = self.call(self.program, "respond", "--plan", "rows.toml").splitlines()
        read = tomllib.loads(rows)["handler"]
        if answer != list(slow_responses.respond(read)):
            self.complain(number, "its bounds are other ones")
        bounds = {int(found[1]): found for found in map(BOUND.fullmatch, answer) if found and found[2]}
        (self.folder / "rows.toml").write_text(with_claims(rows, bounds))
        if self.call(self.program, "confirm", "--plan", "rows.toml") != "yes\n":
            self.complain(number, "its bounds aren't confirmed")
        for (handler, count), ready in machine.ready.items():
            if handler in bounds:
                self.meet(number, machine, (handler, count), ready, bounds[handler])

    def meet(self, number, machine, release, ready, bound):
        units, block, other = int(bound[2]), int(bound[3]), int(bound[5])
        ended = machine.ended.get(release)
        self.releases += 1
        if ended is None and ready + units <= machine.plan["units"] or ended is not None and ended >= ready + units:
            self.complain(number, f"release {release} is ready in {ready}, its bound {units}, its end {ended}")
        if ended == ready + units - 1:
            self.exact += 1
            self.blocked += block > 0
            self.delayed += other > 0


def with_claims(rows, bounds):
    """The rows, each with its bound as a claim."""
    text, place = [], 0
    for line in rows.splitlines():
        text.append(line)
        if line.startswith("[[handler]]"):
            place += 1
            text.append("bound = %s" % (bounds[place][2] if place in bounds else 0))
    return "\n".join(text) + "\n"


def main():
    if len(sys.argv) not in (2, 3):
        sys.exit(__doc__)
    trial, chance = Trial(sys.argv[1]), random.Random(SEED)
    count, tried = int(sys.argv[2]) if len(sys.argv) == 3 else COUNT, 0
    for number in range(10 * count):
        if tried < count:
            tried += trial.try_one(number, *generated(chance))
    print(f"{tried} programs, {trial.releases} releases with a bound, {trial.exact} end exactly with it: {trial.blocked} of "
          f"them with a block above 0, {trial.delayed} with work of others above 0; {trial.wrong} complaints")
    sys.exit(1 if trial.wrong or tried < count or not trial.blocked or not trial.delayed else 0)


if __name__ == "__main__":
    main()
