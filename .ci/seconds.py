"""Processor seconds of a run of the gate, crate by crate: of its own proof, of the proof of its tests, and of its edits.

    python3 seconds.py TABLE COMMAND..     runs the command (`rt ci`) and writes the table to the file TABLE
    python3 seconds.py TABLE --pid NUMBER  the same of a command that runs already, from now on

The gate tells no times. So this looks at its processes five times a second, by /proc: a prover's words name the crate,
`--test` tells the tests, and what works in a folder `rt-edit-..` tries an edit, or makes what the edits begin with.
What a process did after the last look at it is lost, a tenth of a second on average.
"""

import os
import subprocess
import sys
import time

TICKS = os.sysconf("SC_CLK_TCK")
KINDS = ("proof", "tests", "edits")
PAUSE = 0.2
WRITTEN_EVERY = 15


def processes():
    """Each process by its number: its parent, the moment of its start, and its seconds with those of the ended children
    that it has waited for."""
    found = {}
    for name in os.listdir("/proc"):
        if not name.isdigit():
            continue
        try:
            with open(f"/proc/{name}/stat", encoding="utf-8", errors="replace") as file:
                fields = file.read().rpartition(")")[2].split()
        except OSError:
            continue
        found[int(name)] = int(fields[1]), int(fields[19]), sum(map(int, fields[11:15])) / TICKS
    return found


def work_of(number):
    """The crate and the kind of work of a prover, or None of another process."""
    try:
        with open(f"/proc/{number}/cmdline", "rb") as file:
            words = file.read().decode(errors="replace").split("\0")
        folder = os.readlink(f"/proc/{number}/cwd")
    except OSError:
        return None
    if "--crate-name" not in words[:-1]:
        return None
    crate = words[words.index("--crate-name") + 1]
    if os.path.basename(folder).startswith("rt-edit-"):
        return crate, "edits"
    return crate, "tests" if "--test" in words else "proof"


class Seconds:
    """The seconds of each prover below a process."""

    def __init__(self, root):
        self.root, self.works, self.spent = root, {}, {}

    def look(self):
        found = processes()
        children = {}
        for number, (parent, _, _) in found.items():
            children.setdefault(parent, []).append(number)
        left = [(self.root, None)]
        sums = {}
        while left:
            number, prover = left.pop()
            if number in found:
                _, start, seconds = found[number]
                prover = prover or self.prover(number, start)
                if prover:
                    sums[prover] = sums.get(prover, 0) + seconds
            left += [(child, prover) for child in children.get(number, [])]
        for prover, seconds in sums.items():
            self.spent[prover] = max(self.spent.get(prover, 0), seconds)

    def prover(self, number, start):
        """What a process is told by among the provers, or None of another process."""
        key = number, start
        if self.works.get(key) is None:
            self.works[key] = work_of(number)
        return key if self.works[key] else None

    def rows(self):
        """The seconds of each crate, by kinds, those of the longest first."""
        crates = {}
        for key, seconds in self.spent.items():
            crate, kind = self.works[key]
            row = crates.setdefault(crate, dict.fromkeys(KINDS, 0))
            row[kind] += seconds
        return sorted(crates.items(), key=lambda it: -sum(it[1].values()))

    def write(self, file):
        rows = self.rows()
        lines = ["| Crate | Own proof | Tests | Edits | All |", "|---|---|---|---|---|"]
        every = dict.fromkeys(KINDS, 0)
        for crate, row in rows:
            lines.append(line(f"`{crate}`", row))
            every = {kind: every[kind] + row[kind] for kind in KINDS}
        lines.append(line("all", every))
        with open(f"{file}.new", "w", encoding="utf-8") as out:
            out.write("\n".join(lines) + "\n")
        os.replace(f"{file}.new", file)


def line(name, row):
    cells = [name, *(f"{row[kind]:,.0f}" for kind in KINDS), f"{sum(row.values()):,.0f}"]
    return f"| {' | '.join(cells)} |"


def main():
    table, words = sys.argv[1], sys.argv[2:]
    started = None if words[0] == "--pid" else subprocess.Popen(words)
    seconds = Seconds(int(words[1]) if started is None else started.pid)
    written = time.monotonic()
    while started.poll() is None if started else os.path.isdir(f"/proc/{seconds.root}"):
        seconds.look()
        if time.monotonic() - written >= WRITTEN_EVERY:
            seconds.write(table)
            written = time.monotonic()
        time.sleep(PAUSE)
    seconds.write(table)
    return started.returncode if started else 0


if __name__ == "__main__":
    sys.exit(main())
