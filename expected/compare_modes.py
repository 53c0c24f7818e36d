#!/usr/bin/env python3
"""Compares what a program answers in the modes audit, respond, confirm, faults, bounds, migrate, check and run with the
slow versions beside this file.

    compare_modes.py PROGRAM audit      each trace of the table `runs` with its plan, and each with a line removed,
                                        doubled, swapped with its neighbour, and changed in a number, and with misses
                                        that come elsewhere
    compare_modes.py PROGRAM responses  2,000 files of rows, made from a seed, with bounds that are claimed, and 500 of
                                        large numbers
    compare_modes.py PROGRAM faults     the programs of the table `runs`, each with two literals replaced
    compare_modes.py PROGRAM bounds     the same programs, each with two literals replaced
    compare_modes.py PROGRAM migrations the runs of the table `runs` by their plans, migrated
    compare_modes.py PROGRAM guards     3,000 programs with scopes that are unknown, made from a seed, each as it is and
                                        without the lines that break rules: the reports, and the traces of the latter
    compare_modes.py PROGRAM plans      4,000 texts that are nearly plans, made from a seed: what is told of each, by
                                        tools/planning/texts.py, and what is printed of the right ones

PROGRAM is called as `./scj` is. It prints how many answers were compared, and each that is another one; the exit
status is then 1. It is no part of the gate.
"""
import collections
import multiprocessing
import pathlib
import random
import re
import subprocess
import sys
import tempfile

import guarded_texts
import phrases
import plan_texts
import slow_audit
import slow_bounds
import slow_faults
import slow_machine
import slow_responses
import slow_rules
import table_files
import tomllib

sys.path.append(str(pathlib.Path(__file__).resolve().parent.parent / "tools"))
from planning.texts import read_toml, verdict

SEED = 20261201
ROW_FILES = 2000
HARD_ROW_FILES = 500
PLAN_TEXTS = 4000
GUARDED_PROGRAMS = 3000
LITERALS = ["0", "1", "28", "29", "255", "256", "300", "999000", "999001", "1000000", "(- 1)", "2147483647"]


def cases():
    """The cases of the table `runs`: a name, its files by their names, its plan and the trace that is expected."""
    wanted = dict(part.split("\n", 1) for part in table_files.read("stdout", "runs").split("== ")[1:])
    for part in phrases.whole(table_files.read("stdin", "runs")).split("\n== ")[1:]:
        name, _, rest = part.partition("\n")
        files = dict(piece.split("\n", 1) for piece in ("\n" + rest).split("\n-- ")[1:])
        files = {file: text if text.endswith("\n") else text + "\n" for file, text in files.items()}
        plan = files.pop("plan.toml")
        trace = wanted[name].rsplit("status", 1)[0]
        yield name, files, plan, trace


class Comparison:
    """Calls of a program in a folder of its own, counted, and the answers that are others."""

    def __init__(self, program):
        self.program = str(pathlib.Path(program).resolve())
        self.folder = pathlib.Path(tempfile.mkdtemp())
        self.count, self.others = 0, 0

    def put(self, name, content):
        data = content if isinstance(content, bytes) else content.encode()
        (self.folder / name).write_bytes(data)

    def whole_call(self, *words):
        return subprocess.run([self.program, *words], cwd=self.folder, capture_output=True, text=True, errors="replace")

    def call(self, *words):
        return self.whole_call(*words).stdout

    def compare(self, what, answer, wanted):
        self.count += 1
        if answer != wanted:
            self.others += 1
            print(f"{what}: {answer!r} and not {wanted!r}")

    def end(self):
        print(f"{self.count} answers compared, {self.others} are others")
        return 1 if self.others else 0


def changed(chance, lines):
    """The lines with one removed, doubled, swapped with its neighbour, or changed in a number."""
    at = chance.randrange(len(lines))
    yield "removed", lines[:at] + lines[at + 1 :]
    yield "doubled", lines[: at + 1] + lines[at:]
    if len(lines) > 1:
        at = chance.randrange(len(lines) - 1)
        yield "swapped", lines[:at] + [lines[at + 1], lines[at]] + lines[at + 2 :]
    at = chance.randrange(len(lines))
    numbers = list(re.finditer(rb"[0-9]+", lines[at]))
    if numbers:
        number = chance.choice(numbers)
        other = str(max(0, int(number[0]) + chance.choice([-1, 1, 2]))).encode()
        yield "renumbered", lines[:at] + [lines[at][: number.start()] + other + lines[at][number.end() :]] + lines[at + 1 :]


def misses(chance, lines, plan):
    """The lines with a miss in the next unit, or of another class, and with one behind the end of an execution."""
    places = [at for at, line in enumerate(lines) if b" miss " in line]
    if places:
        at = chance.choice(places)
        unit, _, name = lines[at].split()
        other = b"%d miss %s\n" % (int(unit) + chance.randrange(2), chance.choice([name, b"H1", b"Nobody"]))
        yield "another miss", lines[:at] + [other] + lines[at + 1 :]
    places = [at for at, line in enumerate(lines) if line.endswith(b" cleanup\n")]
    if places and plan.get("fire"):
        at, fire = chance.choice(places), chance.choice(plan["fire"])
        other = b"%s miss %s\n" % (lines[at].split()[0], fire["handler"].encode())
        yield "a miss behind cleanup", lines[: at + 1] + [other] + lines[at + 1 :]


def audits(comparison):
    chance = random.Random(SEED)
    for name, _, plan, trace in cases():
        comparison.put("plan.toml", plan)
        read = tomllib.loads(plan)
        lines = trace.encode().splitlines(keepends=True)
        for what, text in [("whole", lines), *changed(chance, lines), *misses(chance, lines, read)]:
            text = b"".join(text)
            comparison.put("trace", text)
            wanted = "yes" if what == "whole" else slow_audit.audit(read, text)
            if what == "whole":
                assert slow_audit.audit(read, text) == "yes", name
            comparison.compare(f"{name}, {what}", comparison.call("audit", "--plan", "plan.toml", "trace"), wanted + "\n")


def rows_of(chance):
    size = chance.choice([1, 2, 3, 5, 8, 20])
    # The slow version tries each number of units up to the gap, so large tables have small numbers.
    longest = chance.choice([10, 100, 1000] if size <= 3 else [10, 30])
    for _ in range(size):
        priority, cost = chance.randint(1, 28), chance.randint(1, longest)
        gap = cost * chance.randint(1, 4 * size) + chance.randint(0, longest)
        yield {
            "priority": priority,
            "cost": cost,
            "gap": gap,
            "section": chance.randint(0, cost),
            "ceiling": chance.randint(priority, 28),
        }


def hard_rows_of(chance):
    """Rows with large costs and gaps, whose loads together are hardly below 1, or above."""
    size = chance.choice([3, 10, 30, 64])
    shares = [chance.random() for _ in range(size)]
    load = chance.choice([0.9, 0.99, 0.999, 0.999999, 1.0, 1.001]) / sum(shares)
    lowest = chance.choice([2, 100, 10_000, 1_000_000])
    for share in shares:
        priority, gap = chance.randint(1, 28), int(lowest * (10_000_000 / lowest) ** chance.random())
        cost = max(1, int(gap * share * load))
        yield {
            "priority": priority,
            "cost": cost,
            "gap": gap,
            "section": chance.choice([0, 0, cost // 100, cost]),
            "ceiling": chance.randint(priority, 28),
        }


def answers(comparison, what, rows, search):
    """Compares what is answered to rows, with bounds by chance near the right ones; what there is of bounds."""
    chance, counts = random.Random(what), collections.Counter()
    for place, row in enumerate(rows):
        bound = search(rows, place)
        row["bound"] = chance.choice([bound or 0, bound or 0, (bound or 1) - 1, (bound or 0) + 1, row["gap"], 0])
        row["bound"] = min(row["bound"], 10_000_000)
    text = "version = 1\n"
    for row in rows:
        text += "[[handler]]\n" + "".join(f"{key} = {value}\n" for key, value in row.items())
    comparison.put("rows.toml", text)
    wanted = list(slow_responses.respond(rows, search))
    answer = comparison.call("respond", "--plan", "rows.toml")
    comparison.compare(f"rows {what}", answer, "".join(line + "\n" for line in wanted))
    verdict = slow_responses.confirm(rows)
    comparison.compare(f"claims {what}", comparison.call("confirm", "--plan", "rows.toml"), verdict + "\n")
    counts["tables"] += 1
    counts["tables whose claims are right"] += verdict == "yes"
    for line in wanted:
        words = line.split()
        counts["rows with a bound" if words[1] == "bound" else "rows without one"] += 1
        if words[1] == "bound":
            counts["bounds with a block"] += words[4] != "0"
            counts["bounds with work of others"] += words[8] != "0"
    return counts


def show(counts):
    print(", ".join(f"{count} {what}" for what, count in sorted(counts.items())))


def responses(comparison):
    chance, counts = random.Random(SEED), collections.Counter()
    for number in range(ROW_FILES):
        counts += answers(comparison, f"{number}", list(rows_of(chance)), slow_responses.least)
    show(counts)
    counts = collections.Counter()
    for number in range(HARD_ROW_FILES):
        rows = list(hard_rows_of(chance))
        try:
            counts += answers(comparison, f"{number} of large numbers", rows, slow_responses.climbed)
        except slow_responses.TooLong:
            counts["tables left out"] += 1
    print("Of large numbers:")
    show(counts)


def replace_literals(chance, files):
    """Puts others in the place of two literals of the files."""
    for _ in range(2):
        file = chance.choice(sorted(files))
        numbers = list(re.finditer(r"(?<![\w.$])[0-9]+(?![\w.])", files[file]))
        if numbers:
            number = chance.choice(numbers)
            text = files[file]
            files[file] = text[: number.start()] + chance.choice(LITERALS) + text[number.end() :]


def faults(comparison):
    chance = random.Random(SEED)
    for name, files, _, _ in cases():
        replace_literals(chance, files)
        names = sorted(files)
        for file in names:
            comparison.put(file, files[file])
        try:
            found = slow_faults.faults([files[file] for file in names])
        except (slow_machine.Refused, StopIteration, SyntaxError):
            continue
        wanted = "".join(f"{names[f]}:{line}:{column}: {fault}\n" for (f, line, column), fault in found)
        comparison.compare(name, comparison.call("faults", *names), f"{wanted}faults {len(found)}\n")


def bounds(comparison):
    chance, counts = random.Random(SEED), collections.Counter()
    for name, files, _, _ in cases():
        replace_literals(chance, files)
        names = sorted(files)
        for file in names:
            comparison.put(file, files[file])
        try:
            lines = slow_bounds.lines(names, [files[file] for file in names])
        except (slow_machine.Refused, StopIteration, SyntaxError):
            continue
        comparison.compare(name, comparison.call("bounds", *names), "".join(line + "\n" for line in lines))
        counts.update(line.split()[2] if " no " in line else "yes" for line in lines[:-1])
    show(counts)


class CountingMachine(slow_machine.Machine):
    """A slow machine that counts what allocInSame answers."""

    def do_same(self, job, frame, about):
        super().do_same(job, frame, about)
        self.note(f"answers that are {str(frame.operands[-1]).lower()}")


def asking(checker):
    """How many `if`s of an accepted program ask of two subjects, and how many of them an assignment undoes."""
    counts = collections.Counter()
    for c in checker.users:
        for m in c.members:
            if m.kind != "field" and m.body:
                body = slow_rules.Body(checker, c, m)
                body.types()
                for node in slow_rules.below(m.body):
                    if node.kind == "if" and body.asks(node):
                        counts["guards" if body.guard(node) else "guards that are undone"] += 1
    return counts


def guarded(number):
    """A program as it is and mended, the report of the one and the trace of the other, and counts."""
    chance = random.Random(SEED + number)
    whole = guarded_texts.text(chance)
    report, right = guarded_texts.mended("G.java", whole)
    if chance.random() < 0.1:
        whole = guarded_texts.with_wrong_head(chance, whole)
        report = slow_rules.lines(["G.java"], [whole])
    machine = CountingMachine(["G.java"], [right], tomllib.loads(guarded_texts.PLAN))
    trace = machine.run()
    counts = asking(machine.program.rules)
    counts.update({what: count for what, count in machine.counts.items() if what.startswith("answers")})
    return whole, report, right, trace, counts


def guards(comparison):
    counts = collections.Counter()
    comparison.put("plan.toml", guarded_texts.PLAN)
    with multiprocessing.Pool(4) as pool:
        made = pool.imap(guarded, range(GUARDED_PROGRAMS), 8)
        for number, (whole, report, right, trace, some) in enumerate(made):
            comparison.put("G.java", whole)
            answer = comparison.call("check", "G.java")
            comparison.compare(f"program {number}", answer, "".join(line + "\n" for line in report))
            comparison.put("G.java", right)
            comparison.compare(f"mended {number}", comparison.call("check", "G.java"), "accepted\n")
            answer = comparison.call("run", "--plan", "plan.toml", "G.java")
            comparison.compare(f"run {number}", answer, "".join(line + "\n" for line in trace))
            counts.update(some)
            counts.update(line.split()[1] for line in report[:-1])
    show(counts)


def new_table(plan):
    """A plan as one of version 2."""
    fires = [{"from": "start"} | fire for fire in plan.get("fire", [])]
    return plan | {"version": 2, "fire": fires, "reading": plan.get("reading", [])}


def migrations(comparison):
    for name, files, plan, trace in cases():
        for file, text in [*files.items(), ("plan.toml", plan)]:
            comparison.put(file, text)
        text = comparison.call("migrate", "--plan", "plan.toml")
        comparison.compare(name, tomllib.loads(text), new_table(tomllib.loads(plan)))
        comparison.put("migrated.toml", text)
        comparison.compare(name, comparison.call("run", "--plan", "migrated.toml", *files), trace)


def plans(comparison):
    chance = random.Random(SEED)
    for number in range(PLAN_TEXTS):
        text = plan_texts.text(chance)
        comparison.put("plan.toml", text)
        said, _, _ = verdict(text.encode())
        call = comparison.whole_call("migrate", "--plan", "plan.toml")
        told = (call.returncode, call.stderr)
        comparison.compare(f"text {number}", told, (0, "") if said is None else (4, f"scj: plan {said}\n"))
        if said is None:
            comparison.compare(f"text {number}", tomllib.loads(call.stdout), new_table(read_toml(text.encode())[0]))


def main():
    kinds = {
        "audit": audits,
        "responses": responses,
        "faults": faults,
        "bounds": bounds,
        "guards": guards,
        "migrations": migrations,
        "plans": plans,
    }
    if len(sys.argv) != 3 or sys.argv[2] not in kinds:
        sys.exit(__doc__)
    comparison = Comparison(sys.argv[1])
    kinds[sys.argv[2]](comparison)
    sys.exit(comparison.end())


if __name__ == "__main__":
    main()
