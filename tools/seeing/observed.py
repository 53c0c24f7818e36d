"""The rows that a run shows, as `respond` reads them: priority, cost, gap, section and ceiling of each handler.

- `cost`: the most operations of a release; of one that hasn't ended, one more than it did.
- `gap`: the fewest units between two releases of the handler in one mission, from the first unit to be chosen in to
  the next one's. Where a handler has no two releases, and the ones that it has were made by releases of one other
  handler, it is that handler's gap; else the greatest one that a row may have.
- `section`: the most operations in a stretch with an active priority above the handler's own.
- `ceiling`: the greatest active priority.

One table speaks of one registration of handlers: missions that number other handlers need tables of their own.
"""
from seeing.trace_lines import BadInput

MOST = 10_000_000


class Observed:
    """The row of a handler, taken from those of all missions that are asked. `gap_note` says where the gap comes
    from if no two releases show it."""

    def __init__(self, number, name, priority):
        self.number, self.name, self.priority, self.releases = number, name, priority, 0
        self.cost, self.gap, self.section, self.ceiling = 1, None, 0, priority
        self.releasers, self.gap_note = set(), None

    def add(self, handler, end):
        self.releases += len(handler.releases)
        for release in handler.releases:
            self.cost = max(self.cost, release.own() + (release.ended is None and release.dropped is None))
            self.section = max([self.section] + release.sections(end))
            self.ceiling = max([self.ceiling] + [priority for _, priority, _ in release.raises])
            self.releasers.add(release.by.handler.number if release.by is not None else None)
        for before, after in zip(handler.releases, handler.releases[1:]):
            gap = after.ready - before.ready
            if gap < 1:
                raise BadInput("releases %d and %d of handler %d (%s) are ready in one unit, %d: no gap holds for it" % (
                    before.number, after.number, handler.number, handler.name, after.ready), after.line)
            self.gap = gap if self.gap is None else min(gap, self.gap)


def observed(run, missions):
    """The rows of the missions, by the handlers' numbers from 1 on."""
    rows, seen_in = {}, {}
    for mission in missions:
        for handler in mission.handlers:
            row = rows.get(handler.number)
            if row is None:
                row = rows[handler.number] = Observed(handler.number, handler.name, handler.priority)
                seen_in[handler.number] = mission
            elif (row.name, row.priority) != (handler.name, handler.priority):
                raise BadInput("handler %d is %s of priority %d in mission %s and %s of priority %d in mission %s: no table "
                               "holds for both; --mission takes one" % (
                                   handler.number, row.name, row.priority, seen_in[handler.number].name, handler.name,
                                   handler.priority, mission.name), handler.line)
            row.add(handler, run.until)
    fill_gaps(rows)
    return [rows[number] for number in sorted(rows)]


def fill_gaps(rows):
    """The gaps that no two releases show."""
    for row in rows.values():
        if row.gap is not None:
            row.gap = min(row.gap, MOST)
            continue
        by = rows.get(next(iter(row.releasers))) if len(row.releasers) == 1 else None
        if by is not None and by.gap is not None and by is not row:
            row.gap, row.gap_note = by.gap, "no two releases: the gap of handler %d, which makes them" % by.number
        else:
            row.gap, row.gap_note = MOST, "no two releases: put the fewest units between two"


def mission_of(run, word):
    """The missions that a word names: a number from 1 on, or the name of a class; all of them without one."""
    if word is None:
        return run.missions
    if word.isdecimal() and len(word) < 9:
        found = run.missions[int(word) - 1:int(word)] if word != "0" else []
    else:
        found = [mission for mission in run.missions if mission.name == word]
    if not found:
        raise BadInput("there is no mission %s in this trace" % word)
    return found
