"""What of a plan never comes in a run of sources: fires that release nobody, readings of ports that nobody reads, and
units past the end. The sources are gone through by their lexemes; where these don't say it, nothing is said.
"""
from mending.lexemes import RESERVED, Classes, Source
from planning.texts import NAME, listed, nearest


STEPS = ("++", "--")


class Sources:
    """What the lexemes of sources show of classes, registrations and readings of ports."""

    def __init__(self, files):
        sources = [Source(it) for it in files]
        self.classes, self.words, self.class_at = Classes(sources), [], []
        for source in sources:
            self.words += [*(it.text for it in source.lexemes), ""]
            self.class_at += [*(it.owner.name if it.owner else None for it in source.lexemes), None]

    def next(self, at, step):
        return self.words[at + step] if 0 <= at + step < len(self.words) else ""

    def is_under(self, name, top):
        return name == top or any(top in (it.name, it.above) for it in self.classes.chain(name))

    def is_made(self, name):
        return any(it == "new" and self.next(at, 1) == name for at, it in enumerate(self.words))

    def opening(self, at):
        """The `(` that the `)` closes."""
        depth = 0
        while at >= 0:
            depth += {")": 1, "(": -1}.get(self.words[at], 0)
            if depth == 0:
                return at
            at -= 1
        return 0

    def types_of(self, name):
        """The names that stand as types before a name."""
        found = set()
        for at, it in enumerate(self.words):
            before = self.next(at, -1)
            if it == name and NAME.fullmatch(before) and before not in RESERVED:
                found.add(before)
        return found

    def registered(self):
        """The types of what `register` is called of, or None where one of them isn't seen."""
        found = set()
        for at, it in enumerate(self.words):
            if it != "register" or self.next(at, 1) != "(":
                continue
            before = self.next(at, -2)
            if self.next(at, -1) != "." or before == "this":
                found.add(self.class_at[at])
            elif before == ")":
                begin = self.opening(at - 2)
                if self.next(begin, -2) != "new":
                    return None
                found.add(self.next(begin, -1))
            elif NAME.fullmatch(before) and self.types_of(before):
                found |= self.types_of(before)
            else:
                return None
        return found

    def ports(self):
        """The ports that are read, or None where one of them isn't seen to be a number."""
        found = set()
        for at, it in enumerate(self.words):
            if it != "read" or self.next(at, -2) != "Device":
                continue
            end = at + 2
            while self.next(end, 0) not in (")", ""):
                end += 1
            port = self.port(self.words[at + 2 : end])
            if port is None:
                return None
            found.add(port)
        return found

    def port(self, words):
        if len(words) == 1 and words[0].isdigit():
            return int(words[0])
        is_name = len(words) == 1 or len(words) == 3 and words[1] == "."
        value = self.constant(words[-1]) if is_name else ""
        return int(value) if value.isdigit() else None

    def constant(self, name):
        """What a name is given where it is declared, if it is declared once and given nothing else."""
        declared = [at for at, it in enumerate(self.words) if it == name and self.next(at, -1) in ("int", "long")]
        given = [at for at, it in enumerate(self.words) if it == name and (self.is_given(at, 1) or self.next(at, -1) in STEPS)]
        is_constant = len(declared) == 1 and given == declared and self.next(declared[0], 3) in (";", ",")
        return self.next(declared[0], 2) if is_constant else ""

    def is_given(self, at, step):
        word = self.next(at, step)
        return word in STEPS or word.endswith("=") and word not in ("==", "!=", "<=", ">=")

    def fire_fault(self, name):
        """Why a fire of a class never releases a handler."""
        if name not in self.classes.by_name:
            return f"there is no class {name}{nearest(name, self.classes.by_name)}"
        if not self.is_under(name, "AperiodicEventHandler"):
            return f"{name} is no aperiodic handler"
        if not self.is_made(name):
            return f"no {name} is made, so no mission registers it"
        of = self.registered()
        if of is not None and not any(it and self.is_under(name, it) for it in of):
            return f"no mission registers a {name}"
        return None


def never_comes(table, sources):
    """A line for each row without effect."""
    units, ports = table["units"], sources.ports()
    for at, row in enumerate(table.get("fire", [])):
        why = sources.fire_fault(row["handler"])
        if row["at"] >= units:
            of = " of a mission" if row.get("from") == "mission" else ""
            why = f"unit {row['at']:,}{of} is past the end, {units:,} units"
        if why:
            yield f"fire number {at + 1} never arrives: {why}"
    for at, row in enumerate(table.get("reading", [])):
        if row["at"] >= units:
            yield f"reading number {at + 1} never counts: unit {row['at']:,} is past the end, {units:,} units"
        elif ports is not None and row["port"] not in ports:
            read = f"the ports read are {listed(map(str, sorted(ports)))}" if ports else "no port is read"
            yield f"reading number {at + 1} never counts: nobody reads port {row['port']}; {read}"
