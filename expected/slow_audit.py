#!/usr/bin/env python3
"""Audits a trace slowly: whether each of its lines passes, by a plan, without the program.

    slow_audit.py PLAN TRACE     prints `yes`, or `no L` with the number of the first line that doesn't pass

It was written from the pages, apart from the audit of `scj`. Nothing is kept from line to line: what stands at a line is
looked up anew among all lines before it.
"""
import re
import sys
import tomllib

NAME = rb"[A-Za-z_$][A-Za-z0-9_$]{0,63}"
NUMBER = rb"(?:0|[1-9][0-9]*)"
FAULTS = (
    b"NullPointer ArrayIndex NegativeSize DivideByZero ClassCast MemoryFull StoreFull ScopedCycle CeilingViolation "
    b"BadPriority BadPeriod BadPort NotInitializing TooManyHandlers DepthFull"
).split()
FORMS = {
    b"mission": rb"(?P<name>%s)" % NAME,
    b"register": rb"(?P<k>%s) (?P<name>%s) (?P<p>%s)" % (NUMBER, NAME, NUMBER),
    b"exec": None,
    b"arrive": rb"(?P<k>%s) (?P<n>%s)" % (NUMBER, NUMBER),
    b"lost": rb"(?P<k>%s)" % NUMBER,
    b"miss": rb"(?P<name>%s)" % NAME,
    b"run": rb"(?P<k>%s) (?P<n>%s)" % (NUMBER, NUMBER),
    b"idle": None,
    b"prio": rb"(?P<k>%s) (?P<p>%s)" % (NUMBER, NUMBER),
    b"print": rb"(?P<label>[ !#-\[\]-~]*) (?P<v>-?%s)" % NUMBER,
    b"fault": rb"(?P<fault>[A-Za-z]+) (?P<file>[^\x00-\x1f\x7f]+):(?P<line>%s)" % NUMBER,
    b"end": rb"(?P<k>%s) (?P<n>%s)" % (NUMBER, NUMBER),
    b"terminate": None,
    b"drop": rb"(?P<k>%s) (?P<n>%s)" % (NUMBER, NUMBER),
    b"cleanup": None,
    b"done": None,
    b"halted": None,
    b"stopped": None,
}
LAST = (b"done", b"halted", b"stopped")
LARGEST = 2**64 - 1


class Line:
    """A line of a trace: its unit, its word and what it names."""

    def __init__(self, unit, word, found):
        self.unit = unit
        self.word = word
        for key in ("k", "n", "p"):
            value = found.get(key)
            setattr(self, key, None if value is None else int(value))
        self.name = found.get("name")

    @property
    def release(self):
        return self.k, self.n


def read_line(text):
    """The line that the bytes are, or None."""
    parts = re.fullmatch(rb"(%s) ([a-z]+)(?: (.*))?" % NUMBER, text, re.DOTALL)
    if not parts or parts[2] not in FORMS or int(parts[1]) > LARGEST:
        return None
    form = FORMS[parts[2]]
    if form is None:
        return None if parts[3] is not None else Line(int(parts[1]), parts[2], {})
    found = re.fullmatch(form, parts[3], re.DOTALL) if parts[3] is not None else None
    if not found:
        return None
    found = found.groupdict()
    if not (1 <= int(found.get("k") or 1) <= 64 and 1 <= int(found.get("p") or 1) <= 28):
        return None
    if int(found.get("n") or 0) > LARGEST:
        return None
    if "v" in found and (found["v"] == b"-0" or not -(2**31) <= int(found["v"]) < 2**31):
        return None
    if "fault" in found and (found["fault"] not in FAULTS or not 1 <= int(found["line"]) <= LARGEST):
        return None
    return Line(int(parts[1]), parts[2], found)


def since_mission(lines):
    begins = [at for at, line in enumerate(lines) if line.word == b"mission"]
    return begins[-1] if begins else 0


def handlers(lines):
    """The priorities of the handlers, in the order of their numbers."""
    return [line.p for line in lines[since_mission(lines) :] if line.word == b"register"]


def last_choice(lines):
    """The release that was chosen last, "idle", or None."""
    for line in reversed(lines):
        if line.word == b"exec":
            return None
        if line.word == b"run":
            return line.release
        if line.word == b"idle":
            return "idle"
    return None


def standings(lines):
    """How the mission's releases stand, in the order of arrival: `("waits", priority)`, `("started", priority)`; those
    that are gone are left out."""
    stand = {}
    priorities = handlers(lines)
    begins = since_mission(lines)
    chosen = last_choice(lines[:begins])
    for line in lines[begins:]:
        if line.word == b"arrive":
            stand[line.release] = ("waits", priorities[line.k - 1])
        elif line.word == b"run":
            chosen = line.release
            if stand.get(chosen, ("", 0))[0] == "waits":
                stand[chosen] = ("started", stand[chosen][1])
        elif line.word == b"idle":
            chosen = "idle"
        elif line.word == b"exec":
            chosen = None
        elif line.word == b"prio" and stand.get(chosen, ("", 0))[0] == "started":
            stand[chosen] = ("started", line.p)
        elif line.word in (b"end", b"drop"):
            stand.pop(line.release, None)
    return stand


def pick(lines):
    """The most urgent release, or "idle": by active priority, then who is started, then who arrived first."""
    best = None
    for release, (how, priority) in standings(lines).items():
        urgency = (priority, how == "started")
        if best is None or urgency > best[0]:
            best = (urgency, release)
    return best[1] if best else "idle"


def executes(lines):
    for line in reversed(lines):
        if line.word in (b"exec", b"cleanup"):
            return line.word == b"exec"
    return False


def is_due(lines, unit, fire):
    """Whether a fire is due in a unit behind these lines: one of version 1 has no `from`, and counts from the start."""
    if fire.get("from", "start") == "start":
        return fire["at"] == unit
    begins = [line.unit for line in lines if line.word == b"exec"]
    return executes(lines) and begins[-1] + 1 + fire["at"] == unit


def misses_choice(lines, line):
    """Whether a choice should stand before the line and doesn't."""
    if not lines or not executes(lines) or line.unit <= lines[-1].unit:
        return False
    unit = lines[-1].unit
    first = next(at for at, other in enumerate(lines) if other.unit == unit)
    before = lines[:first]
    has_choice = any(other.word in (b"run", b"idle") for other in lines[first:])
    if executes(before) and pick(before) != last_choice(before) and not has_choice:
        return True
    return pick(lines) != last_choice(lines) and line.unit != unit + 1


def passes(plan, lines, line):
    if lines and (lines[-1].word in LAST or line.unit < lines[-1].unit):
        return False
    if line.unit != plan["units"] if line.word == b"stopped" else line.unit >= plan["units"]:
        return False
    if misses_choice(lines, line):
        return False
    here = lines[since_mission(lines) :]
    if line.word == b"register":
        return line.k == len(handlers(lines)) + 1
    if line.word == b"arrive":
        arrived = sum(other.word == b"arrive" and other.k == line.k for other in here)
        return line.k <= len(handlers(lines)) and line.n == arrived + 1
    if line.word == b"miss":
        return any(is_due(lines, line.unit, fire) and fire["handler"].encode() == line.name for fire in plan.get("fire", []))
    if line.word in (b"run", b"idle"):
        choice = line.release if line.word == b"run" else "idle"
        return choice == pick(lines) and choice != last_choice(lines)
    if line.word == b"prio":
        chosen = last_choice(lines)
        return chosen not in (None, "idle") and chosen[0] == line.k
    if line.word == b"end":
        return last_choice(lines) == line.release
    if line.word == b"drop":
        return standings(lines).get(line.release, ("gone", 0))[0] == "waits"
    if line.word == b"cleanup":
        return pick(lines) == "idle"
    return True


def audit(plan, text):
    """`yes`, or `no L`."""
    pieces = text.split(b"\n")
    lines = []
    for number, piece in enumerate(pieces[:-1], 1):
        line = read_line(piece)
        if line is None or not passes(plan, lines, line):
            return f"no {number}"
        lines.append(line)
    if pieces[-1] or not lines or lines[-1].word not in LAST:
        return f"no {len(pieces)}"
    return "yes"


def main():
    if len(sys.argv) != 3:
        sys.exit(__doc__)
    with open(sys.argv[1], "rb") as file:
        plan = tomllib.load(file)
    with open(sys.argv[2], "rb") as file:
        print(audit(plan, file.read()))


if __name__ == "__main__":
    main()
