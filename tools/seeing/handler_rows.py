"""The table of a run: for each handler how often it was released, how it answered, and what it needed.

A row stands for the handlers that two missions of one class have alike: of one number, class and priority.
"""
import collections

COLUMNS = (
    ("mission", "mission"), ("number", "number"), ("class", "class"), ("priority", "priority"),
    ("releases", "releases"), ("lost", "lost"), ("dropped", "dropped"), ("faults", "faults"),
    ("least_response", "least"), ("mean_response", "mean"), ("greatest_response", "greatest"),
    ("most_own_units", "most own"), ("longest_wait", "longest wait"), ("preemptions", "preempted"),
    ("most_waiting", "most waiting"),
)


class Row:
    """A row: its handlers, one of each mission, and the release that needed most of each kind."""

    def __init__(self, handler):
        self.handler, self.handlers = handler, []
        self.releases = self.lost = self.dropped = self.faults = self.preemptions = self.ended = self.total = 0
        self.waiting = self.busy = 0
        self.least = self.greatest = self.own = self.wait = None

    def add(self, handler, end):
        self.handlers.append(handler)
        self.lost += len(handler.lost)
        for release in handler.releases:
            self.releases += 1
            self.dropped += release.dropped is not None
            self.faults += release.fault is not None
            self.preemptions += len(release.gaps(end))
            own = release.own()
            self.busy += own
            self.note("own", own, release)
            self.note("wait", release.waited(end), release)
            response = release.response()
            if response is not None:
                self.ended += 1
                self.total += response
                self.note("greatest", response, release)
                if self.least is None or response < self.least[0]:
                    self.least = response, release

        self.waiting = max(self.waiting, most_waiting(handler.releases))

    def note(self, name, value, release):
        """Keeps the greatest value and the first release that has it."""
        if getattr(self, name) is None or value > getattr(self, name)[0]:
            setattr(self, name, (value, release))

    def mean(self):
        """The mean response, with one place behind the point, rounded to the nearer one and halves up."""
        if not self.ended:
            return None
        tenths = (20 * self.total + self.ended) // (2 * self.ended)
        return "%d.%d" % divmod(tenths, 10)

    def cells(self):
        """The values of the columns; None where there is none."""
        value = lambda kept: None if kept is None else kept[0]
        handler = self.handler
        return [handler.mission.name, handler.number, handler.name, handler.priority, self.releases, self.lost,
                self.dropped, self.faults, value(self.least), self.mean(), value(self.greatest), value(self.own),
                value(self.wait), self.preemptions, self.waiting]


def most_waiting(releases):
    """How many of a handler's releases wait at most when one has come and no choice was made since."""
    most, first = 0, 0
    for count, release in enumerate(releases, 1):
        # Those that wait were released in the order in which they are started or dropped.
        while first < count - 1 and gone(releases[first]) < release.ready:
            first += 1
        most = max(most, count - first)
    return most


def gone(release):
    """The unit in which it no longer waits."""
    unit = release.started if release.started is not None else release.dropped
    return 1 << 60 if unit is None else unit


def rows_of(run):
    """The rows, in the order in which they were registered first."""
    rows = {}
    for handler in run.handlers():
        row = rows.get(handler.row())
        if row is None:
            row = rows[handler.row()] = Row(handler)
        row.add(handler, run.until)
    return list(rows.values())


def totals_of(run, rows):
    """How a run ended, in a sentence."""
    counts = [(len(run.missions), "mission"), (sum(row.releases for row in rows), "release"), (len(run.faults), "fault"),
              (sum(row.lost for row in rows), "lost"), (len(run.misses), "miss"), (sum(row.dropped for row in rows), "dropped")]
    words = ["%d %s" % (count, plural(word, count)) for count, word in counts]
    ended = {"stopped": "stopped, the plan's units being spent", "done": "done", "halted": "halted by a fault of the sequencer",
             None: "cut"}[run.end]
    return "%d units (%s ms), %s; %s; %s" % (
        run.until, milliseconds(run.until), ended, ", ".join(words[:2]), ", ".join(words[2:]))


def load_of(run, rows):
    """How many units of execution there were, and in how many a release acted, in a sentence."""
    execution = run.until - sum(behind - first for first, behind in run.sequencer_pieces())
    busy = sum(row.busy for row in rows)
    if not execution:
        return "no unit of execution"
    share = "%d.%d" % divmod((2000 * busy + execution) // (2 * execution), 10)
    return "%d units of execution: %d busy (%s%%), %d idle" % (execution, busy, share, execution - busy)


def plural(word, count):
    if count == 1 or word in ("lost", "dropped"):
        return word
    return word + ("es" if word == "miss" else "s")


def milliseconds(units):
    """A number of units as milliseconds."""
    text = "%d.%03d" % divmod(units, 1000)
    return text.rstrip("0").rstrip(".")


def complaints(run, rows):
    """What a strict reader doesn't let pass, as words; empty where nothing is wrong."""
    counts = collections.OrderedDict(
        fault=len(run.faults), lost=sum(row.lost for row in rows), miss=len(run.misses),
        dropped=sum(row.dropped for row in rows))
    found = ["%d %s" % (count, plural(word, count)) for word, count in counts.items() if count]
    return found + (["a trace that is cut"] if run.end is None else [])
