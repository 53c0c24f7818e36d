"""A picture that is summed by columns: what a lane did in each column of so many units."""
from seeing.picture import Box, Mark

KINDS = ("run", "preempted", "waiting")
MOST_CELLS = 9000
MOST_COLUMNS = 800
WORDS = {"period": "releases", "fire": "releases by fires", "release": "releases by release()", "print": "prints",
         "fault": "faults", "lost": "lost", "drop": "dropped", "miss": "misses"}


class Columns:
    """`width` units a column. `shares` has, for each lane, a list of columns, each a dict of units by kind and of marks
    by kind."""

    def __init__(self, picture):
        self.picture = picture
        lanes = len(picture.lanes)
        span = max(1, picture.behind - picture.first)
        most = max(60, min(MOST_COLUMNS, MOST_CELLS // lanes))
        self.width = nice(-(-span // most))
        self.count = -(-span // self.width)
        self.cells = [[{} for _ in range(self.count)] for _ in range(lanes)]
        self.sum_up()

    def sum_up(self):
        picture, end = self.picture, self.picture.run.until
        for first, behind in picture.run.sequencer_pieces():
            self.add(0, "own", first, behind)
        for handler in picture.run.handlers():
            lane = picture.lane_of[handler.row()]
            for release in handler.releases:
                if not picture.meets(release.ready, release.until(end) + 1):
                    continue
                waited = release.waited(end)
                if waited:
                    self.add(lane, "waiting", release.ready, release.ready + waited)
                for first, behind, _ in release.pieces:
                    self.add(lane, "run", first, behind)
                if len(release.pieces) > 1 or release.ended is None:
                    for first, behind in release.gaps(end):
                        self.add(lane, "preempted", first, behind)
                kind = {"period": "period", "fire": "fire"}.get(release.cause, "release")
                self.mark(lane, kind, release.ready)
                if release.dropped is not None:
                    self.mark(lane, "drop", release.dropped)
            for unit, _ in handler.lost:
                self.mark(lane, "lost", unit)
        run = picture.run
        for unit, _, _, _, release in run.prints:
            self.mark(picture.lane_of_release(release), "print", unit)
        for unit, _, _, _, _, release in run.faults:
            self.mark(picture.lane_of_release(release), "fault", unit)
        for unit, _, _, _ in run.misses:
            self.mark(len(picture.lanes) - 1, "miss", unit)

    def add(self, lane, kind, first, behind):
        """Adds an interval to the columns that it touches."""
        first, behind = max(first, self.picture.first) - self.picture.first, min(behind, self.picture.behind) - self.picture.first
        if first >= behind:
            return
        width, cells = self.width, self.cells[lane]
        at = first // width
        while first < behind:
            edge = min(behind, (at + 1) * width)
            cells[at][kind] = cells[at].get(kind, 0) + edge - first
            first, at = edge, at + 1

    def mark(self, lane, kind, unit):
        at = (unit - self.picture.first) // self.width
        if 0 <= at < self.count:
            cell = self.cells[lane][at]
            cell[kind] = cell.get(kind, 0) + 1

    def drawn(self):
        """For each column that isn't empty: lane, first unit, unit behind, its cell, and what it says."""
        first = self.picture.first
        for lane, cells in enumerate(self.cells):
            for at, cell in enumerate(cells):
                if cell:
                    a = first + at * self.width
                    yield lane, a, min(a + self.width, self.picture.behind), cell, said(cell)


def said(cell):
    """What happened in a cell, in words."""
    names = {"own": "acts", "run": "runs", "preempted": "preempted", "waiting": "waits"}
    parts = ["%s %d units" % (names[kind], cell[kind]) for kind in ("own",) + KINDS if kind in cell]
    return ", ".join(parts + ["%d %s" % (cell[kind], word) for kind, word in WORDS.items() if kind in cell])


def nice(least):
    """The least of 1, 2, 5, 10, 20 .. that isn't below a number."""
    scale = 1
    while True:
        for step in (1, 2, 5):
            if step * scale >= least:
                return step * scale
        scale *= 10
