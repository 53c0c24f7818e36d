"""What a run was, by its trace: missions, handlers, and each release with the pieces in which it ran.

An interval of units is a pair (first, behind): it holds the unit `first`, and no longer `behind`. Lines are numbers of
lines of the trace, from 1 on.
"""


class Release:
    """A release of a handler.

    It arrived in the unit `arrived`, as line `line` says, and could first be chosen in `ready`: one unit later where
    `cause` is `release()`, since what an operation releases takes part in the choices of later units. `cause` is
    `period`, `fire` or `release()`, and `by` is the release whose operation it was. It was first chosen in `started`
    and ended in the unit `ended`, in which it did its last operation; both are None where that didn't come, or where
    it was `dropped`, in that unit. `pieces` has a tuple (first, behind, line) for each time that it ran, with the line
    of its choice; `raises` one (unit, priority, line) for each `prio`, whose priority holds from the next unit on.
    """
    __slots__ = ("handler", "number", "arrived", "line", "ready", "cause", "by", "started", "ended", "end_line",
                 "dropped", "fault", "priority", "pieces", "raises")

    def __init__(self, handler, number, arrived, line):
        self.handler, self.number, self.arrived, self.line = handler, number, arrived, line
        self.ready, self.cause, self.by = arrived, None, None
        self.started = self.ended = self.end_line = self.dropped = self.fault = None
        self.priority = handler.priority
        self.pieces, self.raises = [], ()

    def name(self):
        return "%d %d" % (self.handler.number, self.number)

    def until(self, end):
        """The unit behind its last one: it waits or is under way from `ready` to there."""
        last = self.ended if self.ended is not None else self.dropped
        return max(self.ready, end if last is None else last + 1)

    def response(self):
        """The units from its first one to its end, both counted; None where it hasn't ended."""
        return None if self.ended is None else self.ended - self.ready + 1

    def own(self):
        """How many operations it did."""
        return sum(behind - first for first, behind, _ in self.pieces)

    def waited(self, end):
        """How many units it was ready before its first operation."""
        return (self.started if self.started is not None else self.until(end)) - self.ready

    def gaps(self, end):
        """The intervals in which it was started and another one ran."""
        found = [(before[1], after[0]) for before, after in zip(self.pieces, self.pieces[1:])]
        if self.pieces and self.ended is None and self.pieces[-1][1] < end:
            found.append((self.pieces[-1][1], end))
        return found

    def raised(self, end):
        """The stretches (first, behind, priority, line) in which its active priority is above its handler's."""
        found = []
        ends = [unit + 1 for unit, _, _ in self.raises[1:]] + [self.until(end)]
        for (unit, priority, line), behind in zip(self.raises, ends):
            if priority > self.handler.priority and unit + 1 < behind:
                found.append((unit + 1, behind, priority, line))
        return found

    def sections(self, end):
        """How many operations it did in each stretch with a priority above its own, nested ones as one."""
        stretches = []
        for first, behind, _, _ in self.raised(end):
            if stretches and stretches[-1][1] == first:
                stretches[-1][1] = behind
            else:
                stretches.append([first, behind])
        return [sum(max(0, min(behind, b) - max(first, a)) for a, b, _ in self.pieces) for first, behind in stretches]


class Handler:
    """A handler of one mission. `lost` has a pair (unit, line) for each release that was lost."""

    def __init__(self, mission, number, name, priority, unit, line):
        self.mission, self.number, self.name, self.priority = mission, number, name, priority
        self.unit, self.line, self.releases, self.lost = unit, line, [], []

    def row(self):
        """What two missions' handlers have in common where they are shown as one."""
        return self.mission.name, self.number, self.name, self.priority


class Mission:
    """A mission from its memory's opening on. `exec` is the unit in which `initialize` left, `cleanup` the one in
    which execution was over, `asked` the one in which its end was asked, `until` the unit behind what is shown as
    this mission's: the next one's opening, or the end of the run."""

    def __init__(self, name, began, line):
        self.name, self.began, self.line, self.handlers = name, began, line, []
        self.exec = self.cleanup = self.asked = self.asked_line = self.until = None


class Run:
    """A whole run, or the front of one that was cut.

    `lines` are the trace's lines, `until` is the unit behind the last one that the trace tells of, `end` is `done`,
    `halted`, `stopped` or, of a cut trace, None. `prints` has (unit, line, label, value, release or None), `faults`
    (unit, line, name, file, line of the file, release or None), `misses` (unit, line, name, mission or None). `kinds`
    says of a handler's class whether it is `periodic` or `aperiodic`; `guessed` has the classes of which neither the
    trace nor a source says it."""

    def __init__(self, plan):
        self.plan, self.lines, self.missions = plan, [], []
        self.prints, self.faults, self.misses = [], [], []
        self.until, self.end, self.cut, self.kinds, self.guessed = 0, None, None, {}, []

    def handlers(self):
        for mission in self.missions:
            yield from mission.handlers

    def releases(self):
        for handler in self.handlers():
            yield from handler.releases

    def sequencer_pieces(self):
        """The intervals in which the sequencer acts: all units but those of execution."""
        at = 0
        for mission in self.missions:
            if mission.exec is not None and mission.cleanup != mission.exec:
                yield at, mission.exec + 1
                at = self.until if mission.cleanup is None else mission.cleanup + 1
        if at < self.until:
            yield at, self.until

    def preemptions(self):
        """Each time that a release was left for another one: the two, and the interval in which it didn't run."""
        begins = {(id(release.handler.mission), piece[0]): release for release in self.releases() for piece in release.pieces}
        for release in self.releases():
            for first, behind in release.gaps(self.until):
                yield release, begins[id(release.handler.mission), first], (first, behind)
