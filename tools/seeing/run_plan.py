"""The plan of a run, as docs/PLAN.md has it: as much of it as a trace is compared with. What a plan is, planning/texts.py
says.
"""
from seeing.trace_lines import BadInput

try:
    from planning.texts import read_toml, verdict_of
except ImportError:
    read_toml = None

LONGEST = 1 << 20


class Plan:
    """`units` are those of the run. `fires` maps a unit of the run to the names of the handlers' classes, in the
    plan's order; `mission_fires` does so for units that are counted from the origin of each mission."""

    def __init__(self, units, store, fires, mission_fires, readings):
        self.units, self.store, self.readings = units, store, readings
        self.fires, self.mission_fires = fires, mission_fires


def fires_of(table):
    """The fires by units: those counted from the start, and those counted from each mission's origin."""
    found = ({}, {})
    for row in table.get("fire", []):
        found[row.get("from") == "mission"].setdefault(row["at"], []).append(row["handler"])
    return found


def read_plan(path):
    """The plan in a file."""
    if read_toml is None:
        raise BadInput("a plan is read by Python 3.11 or later, and this is an earlier one", source=path)
    with open(path, "rb") as file:
        data = file.read(LONGEST + 1)
    if len(data) > LONGEST:
        raise BadInput("a plan has at most %d bytes" % LONGEST, source=path)
    table, why = read_toml(data)
    said, row, why = ("not toml", None, why) if table is None else verdict_of(table)
    if said is not None:
        where = "" if row is None else "number %d: " % (row + 1)
        raise BadInput("plan %s: %s%s" % (said, where, why), source=path)
    readings = [(row["port"], row["at"], row["value"]) for row in table.get("reading", [])]
    return Plan(table["units"], table["store"], *fires_of(table), readings)
