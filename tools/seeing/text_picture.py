"""A run in characters, for a terminal: a line a lane, and at most 100 columns."""
from seeing import columns
from seeing.handler_rows import milliseconds
from seeing.page import digits

COLUMNS = 100
MARKS = (("fault", "X"), ("lost", "L"), ("drop", "D"), ("miss", "M"))
KEY = "# runs  = preempted  . waits  ^ a release comes  X fault  L lost  D dropped  M missed fire  s the sequencer acts\n"


class Counted(columns.Columns):
    """Columns of which there are at most 100."""

    def __init__(self, picture):
        self.picture = picture
        span = max(1, picture.behind - picture.first)
        self.width = -(-span // COLUMNS)
        self.count = -(-span // self.width)
        self.cells = [[{} for _ in range(self.count)] for _ in picture.lanes]
        self.sum_up()


def character(cell):
    """What a column shows: what went wrong, and else what took the most."""
    for kind, shown in MARKS:
        if kind in cell:
            return shown
    for kind, shown in (("run", "#"), ("own", "s"), ("preempted", "="), ("waiting", ".")):
        if kind in cell:
            return shown
    return " "


def text_picture(picture):
    summed = Counted(picture)
    wide = max(len(lane.name) for lane in picture.lanes) + 1
    detail = max(len(lane.detail) for lane in picture.lanes) + 1
    front = " " * (wide + detail)
    yield "units %s to %s, a column is %s unit%s (%s ms)\n" % (
        digits(picture.first), digits(picture.behind), digits(summed.width), "s"[:summed.width > 1], milliseconds(summed.width))
    yield front + "|" + "".join("%-10s" % digits(picture.first + at * summed.width) for at in range(0, summed.count, 10)).rstrip() + "\n"
    for lane, cells in zip(picture.lanes, summed.cells):
        arrows = "".join("^" if any(kind in cell for kind in ("period", "fire", "release")) else " " for cell in cells)
        if lane.row:
            yield (front + "|" + arrows).rstrip() + "\n"
        yield (lane.name.ljust(wide) + lane.detail.ljust(detail) + "|" + "".join(map(character, cells))).rstrip() + "\n"
    yield KEY
