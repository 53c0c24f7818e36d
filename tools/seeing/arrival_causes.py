"""What released a handler: its period, a fire of the plan, or `release()` in an operation.

A trace has the same line `arrive` for all three. Lines of fires are told by the plan. An operation makes one release
at most, its line is the unit's last, and what it releases isn't chosen in that unit; `release()` is for aperiodic
handlers alone. So most lines show by themselves what they are, and one that does shows it of its handler's class. Of
what is left the sources say it; without them it is taken for `release()`, since a periodic handler shows itself with
the first release that comes while nobody acts.
"""
import collections

from seeing.trace_lines import BadInput


NEVER = 1 << 60


class Fires:
    """Which fires are due when, unit after unit."""

    def __init__(self, by_unit):
        self.by_unit, self.units, self.at = by_unit, sorted(by_unit), 0

    def next(self):
        """The next unit with a fire that wasn't passed, or None."""
        return self.units[self.at] if self.at < len(self.units) else None

    def due(self, unit):
        """The fires of a unit; those up to it are passed."""
        while self.at < len(self.units) and self.units[self.at] <= unit:
            self.at += 1
        return self.by_unit.get(unit, ())


class Causes:
    def __init__(self, plan, kinds):
        self.fires, self.mission_fires = Fires(plan.fires), plan.mission_fires
        self.from_sources = kinds
        self.counted, self.origin = None, None
        self.first, self.kinds, self.open = {}, {}, []
        self.due, self.arrivals, self.misses, self.has_chosen = (), [], [], False
        self.look_ahead()

    # ---- missions

    def new_mission(self):
        self.first = {}

    def new_handler(self, handler):
        self.first.setdefault(handler.name, handler)

    def begin(self, origin):
        """Execution begins with this unit."""
        self.origin = origin
        if self.mission_fires:
            self.counted = Fires(self.mission_fires)
            self.look_ahead()

    def over(self):
        self.origin = self.counted = None
        self.look_ahead()

    # ---- one unit

    def pass_units(self, unit, line):
        """The fires of the next unit that has a line; there is none in between."""
        if self.next_due < unit:
            raise BadInput("the plan has a fire in unit %d, and no line tells of it: the plan is another one" %
                           self.next_due, line)
        self.due = self.fires.due(unit)
        if self.counted is not None:
            self.due = list(self.due) + list(self.counted.due(unit - self.origin))
        self.look_ahead()

    def look_ahead(self):
        """Sets the next unit in which a fire is due."""
        units = [self.fires.next()]
        if self.counted is not None and self.counted.next() is not None:
            units.append(self.origin + self.counted.next())
        self.next_due = min((unit for unit in units if unit is not None), default=NEVER)

    def is_open(self):
        """Whether something is to be asked where the unit is over."""
        return bool(self.arrivals or self.misses or self.due)

    def arrived(self, handler, release, choice, is_behind, line):
        self.arrivals.append((handler, release, choice, is_behind, line))

    def missed(self, name, takes_in, line):
        self.misses.append((name, takes_in, line))

    def chosen(self):
        self.has_chosen = True

    def close_unit(self, unit, has_acted, line):
        """All lines of a unit are there."""
        arrivals = self.arrivals
        for name, count in collections.Counter(self.due).items():
            arrivals = self.take_fires(unit, name, count, arrivals, line)
        for name, _, at in self.misses:
            if name not in self.due:
                raise BadInput("the plan has no fire of %s in unit %d: the plan is another one" % (name, unit), at)
        if arrivals:
            self.take_others(unit, arrivals, has_acted)
        self.due, self.arrivals, self.misses = (), [], []

    def close_cut(self, unit, has_acted, line):
        """Some lines of the last unit of a cut trace may be missing."""
        due, self.due = self.due, []
        for name, count in collections.Counter(due).items():
            misses = sum(miss[0] == name for miss in self.misses)
            arrivals = sum(arrival[0] is self.first.get(name) for arrival in self.arrivals)
            self.due = list(self.due) + [name] * min(count, misses or arrivals)
        self.close_unit(unit, has_acted, line)

    def take_fires(self, unit, name, count, arrivals, line):
        """Finds the lines of the fires of one class; the other arrivals."""
        misses = [miss for miss in self.misses if miss[0] == name]
        handler = self.first.get(name)
        if len(misses) == count:
            if handler is not None and misses[0][1]:
                self.kinds[name] = "periodic"
            return arrivals
        mine = [arrival for arrival in arrivals if arrival[0] is handler and not arrival[3]][:count]
        if misses or len(mine) < count:
            raise BadInput("the plan has %d fire%s of %s in unit %d, and the trace tells of %d: the plan is another one" % (
                count, "s"[:count > 1], name, unit, len(misses) or len(mine)), line)
        self.kinds[name] = "aperiodic"
        for _, release, _, _, _ in mine:
            if release is not None:
                release.cause = "fire"
        return [arrival for arrival in arrivals if arrival not in mine]

    def take_others(self, unit, arrivals, has_acted):
        """Arrivals by a period, and by one operation at most."""
        for arrival in arrivals[:-1]:
            self.see(arrival, "periodic")
        handler, release, choice, is_behind, line = arrivals[-1]
        before = [arrival[0].number for arrival in self.arrivals if arrival[4] < line]
        if is_behind:
            self.see(arrivals[-1], "aperiodic")
        elif self.has_chosen or has_acted or choice is None or choice.ended is not None:
            self.see(arrivals[-1], "periodic")
        elif handler.priority > choice.priority or before and before[-1] >= handler.number or any(
                miss[2] < line for miss in self.misses):
            self.see(arrivals[-1], "aperiodic")
        else:
            self.open.append((unit, arrivals[-1]))

    def see(self, arrival, kind):
        handler, release, choice, _, _ = arrival
        self.kinds[handler.name] = kind
        if release is not None:
            self.set_cause(release, kind, choice)

    def set_cause(self, release, kind, choice):
        if kind == "periodic":
            release.cause = "period"
        else:
            release.cause, release.by, release.ready = "release()", choice, release.arrived + 1

    # ---- the end

    def settle(self, run):
        """The causes that a line by itself doesn't show."""
        self.kinds.update(self.from_sources)
        for unit, (handler, release, choice, _, _) in self.open:
            if handler.name not in self.kinds:
                self.kinds[handler.name] = "aperiodic"
                if handler.name not in run.guessed:
                    run.guessed.append(handler.name)
            if release is not None:
                self.set_cause(release, self.kinds[handler.name], choice)
        run.kinds = self.kinds
