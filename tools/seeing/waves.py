"""A run as a wave file: value changes by IEEE 1364, as GTKWave opens them. One unit of time is a unit of the run.

Each lane is a scope. A handler has these variables: `runs` and `preempted` are 1 in the units in which they hold,
`waiting` counts the releases that wait, `release` is the number of the one that is under way, `priority` its active
priority; `arrives`, `ends`, `prints`, `fault`, `lost` and `drop` are events. The sequencer has `acts`, `mission` (the
number of the mission, from 1 on) and `phase` (0 none, 1 initialisation, 2 execution, 3 cleanup)."""
import re

HANDLER = (("runs", "wire", 1), ("preempted", "wire", 1), ("waiting", "reg", 8), ("release", "reg", 32), ("priority", "reg", 8),
           ("arrives", "event", 1), ("ends", "event", 1), ("prints", "event", 1), ("fault", "event", 1), ("lost", "event", 1),
           ("drop", "event", 1))
SEQUENCER = (("acts", "wire", 1), ("mission", "reg", 32), ("phase", "reg", 2), ("prints", "event", 1), ("fault", "event", 1),
             ("terminate", "event", 1))
MISSES = (("miss", "event", 1),)
PHASES = {"initialisation": 1, "execution": 2, "cleanup": 3}


def code(number):
    """A short identifier of printable characters."""
    digits = ""
    while True:
        number, digit = divmod(number, 94)
        digits += chr(33 + digit)
        if number == 0:
            return digits


def variables(lane, is_first):
    return HANDLER if lane.row else SEQUENCER if is_first else MISSES


class Waves:
    """Collects changes as (unit, identifier, text); the order of one unit is that in which they came."""

    def __init__(self, picture):
        self.picture, self.changes, self.ids = picture, [], {}
        for at, lane in enumerate(picture.lanes):
            for name, kind, size in variables(lane, at == 0):
                self.ids[at, name] = code(len(self.ids)), kind, size

    def change(self, unit, lane, name, value=1):
        identifier, kind, size = self.ids[lane, name]
        if kind == "event" or size == 1:
            text = "%d%s" % (value, identifier)
        else:
            text = "b%s %s" % (bin(value)[2:], identifier)
        self.changes.append((unit, text, identifier))

    def stretch(self, lane, name, first, behind, value=1, back=0):
        self.change(first, lane, name, value)
        self.change(behind, lane, name, back)

    def collect(self):
        run, picture = self.picture.run, self.picture
        for first, behind in run.sequencer_pieces():
            self.stretch(0, "acts", first, behind)
        for number, mission in enumerate(run.missions, 1):
            self.change(mission.began, 0, "mission", number)
            if mission.asked is not None:
                self.change(mission.asked, 0, "terminate")
        for phase, _, first, behind, _ in picture.bands():
            self.stretch(0, "phase", first, behind, PHASES[phase])
        for handler in run.handlers():
            lane = picture.lane_of[handler.row()]
            for release in handler.releases:
                self.collect_release(lane, release)
            self.collect_waiting(lane, handler)
            for unit, _ in handler.lost:
                self.change(unit, lane, "lost")
        for unit, _, _, _, release in run.prints:
            self.change(unit, picture.lane_of_release(release), "prints")
        for unit, _, _, _, _, release in run.faults:
            self.change(unit, picture.lane_of_release(release), "fault")
        for unit, _, _, _ in run.misses:
            self.change(unit, len(picture.lanes) - 1, "miss")

    def collect_release(self, lane, release):
        until = release.until(self.picture.run.until)
        self.change(release.arrived, lane, "arrives")
        if release.dropped is not None:
            self.change(release.dropped, lane, "drop")
        if release.started is None:
            return
        self.stretch(lane, "release", release.started, until, release.number)
        self.stretch(lane, "priority", release.started, until, release.handler.priority)
        for unit, priority, _ in release.raises:
            if unit + 1 < until:
                self.change(unit + 1, lane, "priority", priority)
        for first, behind, _ in release.pieces:
            self.stretch(lane, "runs", first, behind)
        for first, behind in release.gaps(self.picture.run.until):
            self.stretch(lane, "preempted", first, behind)
        if release.ended is not None:
            self.change(release.ended, lane, "ends")

    def collect_waiting(self, lane, handler):
        steps = {}
        for release in handler.releases:
            waited = release.waited(self.picture.run.until)
            if waited:
                steps[release.ready] = steps.get(release.ready, 0) + 1
                steps[release.ready + waited] = steps.get(release.ready + waited, 0) - 1
        count = 0
        for unit in sorted(steps):
            count += steps[unit]
            self.change(unit, lane, "waiting", count)


def waves(picture):
    """The lines of the file."""
    made = Waves(picture)
    made.collect()
    yield "$version scj tools/timeline $end\n$timescale 1 us $end\n$scope module run $end\n"
    for at, lane in enumerate(picture.lanes):
        yield "$scope module %s $end\n" % scope_name(at, lane)
        for name, kind, size in variables(lane, at == 0):
            yield "$var %s %d %s %s $end\n" % (kind, size, made.ids[at, name][0], name)
        yield "$upscope $end\n"
    yield "$upscope $end\n$enddefinitions $end\n"
    yield from changes(made, picture)


def scope_name(at, lane):
    """A name of letters, digits and `_`: the handler's number first, so that names are apart."""
    if not lane.row:
        return lane.name
    handler = lane.row.handler
    return re.sub(r"[^A-Za-z0-9_]", "_", "h%d_%s_%s_p%d" % (handler.number, handler.name, handler.mission.name, handler.priority))


def changes(made, picture):
    """The values at the first unit, and then each change of the picture's units."""
    made.changes.sort(key=lambda change: change[0])
    now = {}
    for (lane, name), (identifier, kind, size) in made.ids.items():
        if kind != "event":
            now[identifier] = "0" + identifier if size == 1 else "b0 " + identifier
    events = {identifier for identifier, kind, _ in made.ids.values() if kind == "event"}
    at = 0
    while at < len(made.changes) and made.changes[at][0] < picture.first:
        at += 1
    for unit, text, identifier in made.changes:
        if unit <= picture.first and identifier in now:
            now[identifier] = text
    yield "#%d\n$dumpvars\n" % picture.first + "".join(text + "\n" for text in now.values()) + "$end\n"
    told = picture.first
    while at < len(made.changes) and made.changes[at][0] <= picture.behind:
        unit, batch, happened = made.changes[at][0], {}, []
        while at < len(made.changes) and made.changes[at][0] == unit:
            _, text, identifier = made.changes[at]
            if identifier not in events:
                batch[identifier] = text
            elif text not in happened and unit < picture.behind:
                happened.append(text)
            at += 1
        texts = [text for identifier, text in batch.items() if now[identifier] != text] + happened
        now.update(batch)
        if texts:
            yield ("" if unit == told else "#%d\n" % unit) + "".join(text + "\n" for text in texts)
            told = unit
    if told != picture.behind:
        yield "#%d\n" % picture.behind
