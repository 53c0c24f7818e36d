"""Sums over a run, unit by unit, from the states of the slow machine in expected/ and not from the lines of its trace.

It shares nothing with the readers of tools/seeing: in each unit it looks at every release that there is, and adds one
to what that release does in it. .ci/seeing compares the two.

    unit_sums.cases()             the runs of crates/scj_tables: name, files as pairs (name, text), plan as text, trace
    unit_sums.watch(files, plan)  the sums of a run, as `Sums`
"""
import collections
import pathlib
import sys
import tomllib

sys.path.insert(0, str(pathlib.Path(__file__).resolve().parent.parent / "expected"))
import phrases
import slow_machine
import table_files


class Sums:
    """`releases` has a Counter for each release, by (mission, handler, number): of its units `run`, `preempted`,
    `waiting` and `raised`, the sum of its `priorities` in the units in which it ran, how often it was `left`, and its
    longest `section`. `left_for` counts the pairs of a
    release that was left and the one that ran instead, `phases` the units of each phase, `sequencer` its own units,
    `waiting` has the most that waited at once, by (mission, handler)."""

    def __init__(self):
        self.releases = collections.defaultdict(collections.Counter)
        self.left_for, self.phases, self.ends = collections.Counter(), collections.Counter(), {}
        self.waiting, self.sequencer = collections.Counter(), 0


class Watched(slow_machine.Machine):
    def __init__(self, names, texts, plan):
        super().__init__(names, texts, plan)
        self.sums, self.missions, self.before = Sums(), 0, None

    def key(self, release):
        return self.missions, release.handler.number, release.number

    def tell(self, line):
        super().tell(line)
        if line.startswith("mission "):
            self.missions += 1
            self.sums.phases["initialisation"] += 1
        if line.startswith("fault ") and self.phase == "execution":
            self.sums.releases[self.key(self.last_choice)]["faults"] += 1

    def one_unit(self):
        # The unit that opens a mission's memory counts where it succeeds.
        if self.following != "OPENMISSION":
            self.sums.phases[self.phase] += 1
        super().one_unit()

    def operate(self, job):
        """Looks at the state between the choice and the operation."""
        if self.phase != "execution":
            self.sums.sequencer += 1
        for release in self.releases:
            sums = self.sums.releases[self.key(release)]
            if release is job:
                self.look_at_acting(release, sums)
            else:
                sums["preempted" if release.is_started else "waiting"] += 1
                if release is self.before:
                    sums["left"] += 1
                    self.sums.left_for[self.key(release), self.key(job)] += 1
        self.before = job
        super().operate(job)

    def look_at_acting(self, release, sums):
        sums["run"] += 1
        if release.priority > release.handler.priority:
            sums["raised"] += 1
            sums["stretch"] += 1
            sums["section"] = max(sums["section"], sums["stretch"])
        else:
            sums["stretch"] = 0
        sums["priorities"] += release.priority

    def arrive(self, handler):
        super().arrive(handler)
        waiting = sum(r.handler is handler and not r.is_started for r in self.releases)
        key = self.missions, handler.number
        self.sums.waiting[key] = max(self.sums.waiting[key], waiting)

    def finish(self, release):
        super().finish(release)
        self.sums.ends[self.key(release)] = self.unit


def watch(files, plan):
    machine = Watched([name for name, _ in files], [text for _, text in files], tomllib.loads(plan))
    return machine.sums, machine.run()


def cases():
    """The runs of the table, one after the other."""
    told = {}
    for line in table_files.read("stdout", "runs").split("\n"):
        if line.startswith("== "):
            name, told[line[3:]] = line[3:], []
        elif line and not line.startswith("status "):
            told[name].append(line)
    name, files = None, []
    for line in table_files.read("stdin", "runs").split("\n") + ["== "]:
        if line.startswith("== "):
            if files:
                texts = [(file, phrases.whole("\n".join(lines) + "\n")) for file, lines in files]
                yield name, texts[:-1], texts[-1][1], told[name]
            name, files = line[3:], []
        elif line.startswith("-- "):
            files.append((line[3:], []))
        elif files:
            files[-1][1].append(line)
