"""The picture of a run in units: lanes, boxes in them, marks, and the bands of missions. How it is drawn is another
matter (page.py, waves.py, events.py, columns.py)."""
import bisect

from seeing import handler_rows

TITLE_LINES = 10


class Lane:
    """A row of the picture: the sequencer's (without a row of the table), that of a row of handlers, or that of the
    misses."""

    def __init__(self, name, detail, row=None):
        self.name, self.detail, self.row = name, detail, row


class Box:
    """A stretch of units in a lane. `kind` is `run`, `preempted`, `waiting`, `raised` or `own`, the sequencer's; `note`
    is the priority of one that is raised."""
    __slots__ = ("lane", "kind", "first", "behind", "what", "lines", "note")

    def __init__(self, lane, kind, first, behind, what, lines, note=None):
        self.lane, self.kind, self.first, self.behind = lane, kind, first, behind
        self.what, self.lines, self.note = what, lines, note


class Mark:
    """Something at a unit in a lane: `period`, `fire`, `release`, `print`, `fault`, `lost`, `drop`, `miss`. A release's
    has the unit `behind` its last one."""
    __slots__ = ("lane", "kind", "unit", "what", "lines", "behind")

    def __init__(self, lane, kind, unit, what, lines, behind=None):
        self.lane, self.kind, self.unit, self.what, self.lines, self.behind = lane, kind, unit, what, lines, behind


class Picture:
    """What of a run lies in the units from `first` on and before `behind`."""

    def __init__(self, run, first=None, behind=None):
        self.run = run
        self.first = 0 if first is None else first
        self.behind = run.until if behind is None else min(behind, run.until)
        self.rows = handler_rows.rows_of(run)
        self.lanes = self.make_lanes()
        self.lane_of = {lane.row.handler.row(): number for number, lane in enumerate(self.lanes) if lane.row}

    def make_lanes(self):
        """The sequencer, then mission by mission the handlers, the most urgent one first, then the misses."""
        missions = list(dict.fromkeys(row.handler.mission.name for row in self.rows))
        lanes = [Lane("sequencer", "outside execution")]
        for row in sorted(self.rows, key=lambda row: (missions.index(row.handler.mission.name), -row.handler.priority,
                                                      row.handler.number)):
            detail = "priority %d" % row.handler.priority
            if len(missions) > 1:
                detail = "%s, %s" % (row.handler.mission.name, detail)
            lanes.append(Lane("%d %s" % (row.handler.number, row.handler.name), detail, row))
        if self.run.misses:
            lanes.append(Lane("misses", "fires without effect"))
        return lanes

    def meets(self, first, behind):
        return first < self.behind and behind > self.first

    def count(self):
        """How many boxes and marks there are to draw, as a bound from above."""
        run, first, behind = self.run, self.first, self.behind
        total = sum(first <= row[0] <= behind for rows in (run.prints, run.misses, run.faults) for row in rows)
        for handler in run.handlers():
            total += sum(first <= unit <= behind for unit, _ in handler.lost)
            for release in handler.releases:
                if self.meets(release.ready, release.until(run.until) + 1):
                    total += 4 + 2 * len(release.pieces) + len(release.raises)
        return total

    # ---- lines of the trace

    def line(self, number):
        return self.run.lines[number - 1].decode("utf-8", "replace")

    def lines_from(self, number, behind):
        """The lines from one on, as far as they tell of units before `behind`."""
        found = []
        for line in self.run.lines[number - 1:number + TITLE_LINES]:
            if int(line[:line.find(b" ")]) >= behind:
                return found
            if len(found) == TITLE_LINES:
                return found + [".."]
            found.append(line.decode("utf-8", "replace"))
        return found

    # ---- boxes

    def boxes(self):
        """All boxes that lie in the picture."""
        for first, behind in self.run.sequencer_pieces():
            if self.meets(first, behind):
                yield Box(0, "own", first, behind, "the sequencer acts", ())
        self.chosen = {(id(release.handler.mission), piece[0]): (release, piece[2]) for release in self.run.releases()
                       for piece in release.pieces}
        self.pieces = {}
        for release in self.run.releases():
            self.pieces.setdefault(id(release.handler.mission), []).extend((*piece[:2], release) for piece in release.pieces)
        for pieces in self.pieces.values():
            pieces.sort(key=lambda piece: piece[0])
        for handler in self.run.handlers():
            lane = self.lane_of[handler.row()]
            for release in handler.releases:
                if self.meets(release.ready, release.until(self.run.until)):
                    for box in self.boxes_of(lane, release):
                        if self.meets(box.first, box.behind):
                            yield box

    def meanwhile(self, release, first, behind):
        """Who ran in an interval, with the units of each, as a line; none where nobody did."""
        pieces, units = self.pieces.get(id(release.handler.mission), []), {}
        at = max(0, bisect.bisect_right(pieces, first, key=lambda piece: piece[0]) - 1)
        while at < len(pieces) and pieces[at][0] < behind:
            a, b, other = pieces[at]
            if min(b, behind) > max(a, first):
                name = "%d %s" % (other.handler.number, other.handler.name)
                units[name] = units.get(name, 0) + min(b, behind) - max(a, first)
            at += 1
        most = sorted(units.items(), key=lambda pair: -pair[1])
        return ["meanwhile " + ", ".join("%s runs %d" % pair for pair in most[:6]) + (" .." if len(most) > 6 else "")] if most else []

    def boxes_of(self, lane, release):
        """The boxes of a release. The lines of choices are found by mission and unit."""
        name, end = "%s, release %d" % (self.lanes[lane].name, release.number), self.run.until
        mission = id(release.handler.mission)
        line = lambda unit: [self.line(self.chosen[mission, unit][1])] if (mission, unit) in self.chosen else []
        waited = release.waited(end)
        if waited:
            first, behind = release.ready, release.ready + waited
            yield Box(lane, "waiting", first, behind, name + " waits",
                      [self.line(release.line)] + line(behind) + self.meanwhile(release, first, behind))
        for first, behind, number in release.pieces:
            yield Box(lane, "run", first, behind, name + " runs", self.lines_from(number, behind))
        for first, behind in release.gaps(end):
            other = self.chosen[mission, first][0]
            by = " is preempted by %d %s, release %d" % (other.handler.number, other.handler.name, other.number)
            yield Box(lane, "preempted", first, behind, name + by, line(first) + line(behind) + self.meanwhile(release, first, behind))
        for first, behind, priority, number in release.raised(end):
            back = [self.line(other) for unit, _, other in release.raises if unit == behind - 1]
            yield Box(lane, "raised", first, behind, "%s has the priority %d" % (name, priority), [self.line(number)] + back,
                      priority)

    # ---- marks

    def marks(self):
        for mark in self.all_marks():
            if self.first <= mark.unit <= self.behind:
                yield mark

    def all_marks(self):
        for handler in self.run.handlers():
            lane = self.lane_of[handler.row()]
            for release in handler.releases:
                yield self.arrival(lane, release)
                if release.dropped is not None:
                    what = "%s, release %d is dropped" % (self.lanes[lane].name, release.number)
                    yield Mark(lane, "drop", release.dropped, what, ["%d drop %s" % (release.dropped, release.name())])
            for unit, line in handler.lost:
                yield Mark(lane, "lost", unit, "a release of %s is lost: 64 wait" % self.lanes[lane].name, [self.line(line)])
        for unit, line, label, value, release in self.run.prints:
            yield Mark(self.lane_of_release(release), "print", unit, "prints", [self.line(line)])
        for unit, line, name, file, number, release in self.run.faults:
            yield Mark(self.lane_of_release(release), "fault", unit, "a fault", [self.line(line)])
        for unit, line, name, mission in self.run.misses:
            yield Mark(len(self.lanes) - 1, "miss", unit, "a fire of %s has no effect" % name, [self.line(line)])

    def lane_of_release(self, release):
        return 0 if release is None else self.lane_of[release.handler.row()]

    def arrival(self, lane, release):
        """The mark of a release at the unit from which on it can be chosen."""
        name = "%s, release %d" % (self.lanes[lane].name, release.number)
        kind, what = release.cause, " comes by its period"
        if kind == "fire":
            what = " comes by a fire of the plan"
        elif kind == "release()":
            kind, what = "release", " is made by %d %s, release %d" % (
                release.by.handler.number, release.by.handler.name, release.by.number)
        return Mark(lane, kind, release.ready, name + what, [self.line(release.line)], release.until(self.run.until))

    # ---- missions

    def bands(self):
        """The phases of missions in the picture: (what, name, first unit, unit behind, lines)."""
        for mission in self.run.missions:
            if not self.meets(mission.began, mission.until):
                continue
            until = mission.until
            execution = until if mission.exec is None else mission.exec + 1
            cleanup = until if mission.cleanup is None else max(execution, mission.cleanup + 1)
            yield "initialisation", mission.name, mission.began, min(execution, until), [self.line(mission.line)]
            if execution < cleanup:
                yield "execution", mission.name, execution, cleanup, []
            if cleanup < until:
                yield "cleanup", mission.name, cleanup, until, []
