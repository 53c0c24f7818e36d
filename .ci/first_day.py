#!/usr/bin/env python3
"""Compares docs/FIRST_DAY.md with what the program and the scripts print.

    .ci/first_day.py              the page against the table `reports` of crates/scj_tables, and the scripts of tools/
    .ci/first_day.py --write      writes the page's case into that table, with the answers of the page
    .ci/first_day.py PROGRAM      the page against that program

The page has files as a line with the name and a block behind it, changes as `In FILE`, a block, `becomes` and a block,
and commands with their outputs in blocks. The answers of the page were written by hand; the gate runs the case, and its
program has to print them.
"""
import glob
import os
import re
import shlex
import subprocess
import sys
import tempfile
import tomllib

sys.dont_write_bytecode = True
TOP = os.path.dirname(os.path.dirname(os.path.realpath(__file__)))
sys.path.insert(0, f"{TOP}/.ci")
import tables

PAGE, CASE, BEHIND = "docs/FIRST_DAY.md", "== FIRST_DAY", "== run "
FINDING = re.compile(r"([^ ]+):(\d+):(\d+): ([A-Z]\d+ [a-z ]+?)(?:, and \d+ more with one cause)?")


class Wrong(Exception):
    pass


def steps(text):
    """The files, changes and commands of the page, in order."""
    blocks = re.split(r"^```\w*\n(.*?)^```\n", text, flags=re.M | re.S)
    old = None
    for said, block in zip(blocks[::2], blocks[1::2]):
        last = said.strip().split("\n")[-1]
        whole, change = re.fullmatch(r"`([^`]+)`:", last), re.fullmatch(r"In `([^`]+)`", last)
        if block.startswith("$ "):
            for part in re.split(r"^\$ ", block, flags=re.M)[1:]:
                command, _, output = part.partition("\n")
                yield "command", command, output
        elif whole:
            yield "file", whole[1], block
        elif change:
            old = change[1], block
        elif last == "becomes" and old:
            yield "change", old, block
            old = None
        else:
            raise Wrong(f"a block behind `{last}` is no file, no change and no command")


def report_of(output):
    """The report of which tools/findings shows that."""
    rows, text = [], {}
    for line in output.split("\n"):
        found = FINDING.fullmatch(line)
        if found:
            rows.append((found[1], int(found[2]), int(found[3])))
            text[rows[-1]] = last = found[4]
        for it in line.removeprefix("  Also: ").split(", ") if line.startswith("  Also: ") else []:
            name, row, column = it.rsplit(":", 2)
            rows.append((name, int(row), int(column)))
            text[rows[-1]] = last
    return "".join(f"{name}:{row}:{column}: {text[name, row, column]}\n" for name, row, column in rows), len(rows)


class Day:
    """The folder of the page, step by step, and the calls of the program in it."""

    def __init__(self, room, answers):
        self.room, self.answers, self.files, self.asked, self.told, self.last = room, answers, {}, [], [], {}
        os.symlink(f"{TOP}/tools", f"{room}/tools")
        os.symlink(f"{TOP}/docs", f"{room}/docs")

    def write(self, name, text):
        self.files[name] = text
        with open(f"{self.room}/{name}", "w", encoding="utf-8") as it:
            it.write(text)

    def change(self, name, old, new):
        if not old.endswith("\n") or self.files[name].count(old) != 1:
            old, new = old.rstrip("\n"), new.rstrip("\n")
        if self.files[name].count(old) != 1:
            raise Wrong(f"{name} hasn't once: {old}")
        self.write(name, self.files[name].replace(old, new))

    def call(self, words, output, filtered):
        """A call of the program: what it prints, by the page or by the answers that are given."""
        for name, text in self.files.items():
            if self.last.get(name) != text:
                self.asked += [f"-- {name}", *text.removesuffix("\n").split("\n")]
        self.last = dict(self.files)
        self.asked.append("$ " + " ".join(words))
        if self.answers is not None:
            return self.answers(words, self.room)
        said = output
        if filtered == "tools/findings":
            report, count = report_of(output)
            said = report + f"refused {count}\n"
        self.told.append((words, said, dict(self.files)))
        return said

    def command(self, command, output):
        first, _, second = command.partition(" | ")
        words = shlex.split(first)
        if words[0] != "./scj":
            said = self.script(words, None)
        else:
            said = self.call(words[1:], output, second)
            if second and not (second.startswith("grep") and self.answers is None):
                said = self.script(shlex.split(second), said)
        if said != output:
            raise Wrong(f"`{command}` prints\n{said}in place of\n{output}")

    def script(self, words, given):
        how = {"input": given.encode()} if given is not None else {"stdin": subprocess.DEVNULL}
        done = subprocess.run(words, cwd=self.room, stdout=subprocess.PIPE, stderr=subprocess.STDOUT, check=False, **how)
        return done.stdout.decode()


def through(answers):
    """Goes through the page. The lines of the case, and what the page says of its calls."""
    with open(f"{TOP}/{PAGE}", encoding="utf-8") as it:
        text = it.read()
    with tempfile.TemporaryDirectory() as room:
        day = Day(room, answers)
        for kind, name, rest in steps(text):
            if kind == "file":
                day.write(name, rest)
            elif kind == "change":
                day.change(*name, rest)
            else:
                day.command(name, rest)
        return day


def lines_of(file):
    with open(f"{tables.DATA}/{file}", encoding="utf-8") as it:
        return it.read()


def case_in(text):
    begin = text.find(CASE + "\n")
    if begin < 0:
        return None
    return text[begin : text.index("\n== ", begin) + 1]


def answers_in(text):
    """The answers of the case in the table: the words, the lines and the status."""
    found = []
    for line in (case_in(text) or "").split("\n")[1:]:
        if line.startswith("$ "):
            found.append([line[2:].split(" "), [], None])
        elif line.startswith("status "):
            found[-1][2] = line
        elif line:
            found[-1][1].append(line)
    return found


def compare():
    """The page against the table, and against the scripts over what the table has."""
    day, told = through(None), answers_in(lines_of("stdout"))
    if case_in(lines_of("stdin")) != "\n".join([CASE, *day.asked]) + "\n":
        raise Wrong("crates/scj_tables/stdin has another case: .ci/first_day.py --write")
    left = list(told)

    def printed(words, _):
        if not left or left[0][0] != words:
            raise Wrong(f"crates/scj_tables/stdout has no call of {' '.join(words)}")
        return "".join(f"{it}\n" for it in left.pop(0)[1])

    through(printed)
    if left:
        raise Wrong("crates/scj_tables/stdout has more calls")


def trace_of(words, files):
    """The trace of a run by the slow machine, which was written apart from the program."""
    sys.path.insert(0, f"{TOP}/expected")
    import slow_machine
    names = words[3:]
    return slow_machine.trace(names, [files[it] for it in names], tomllib.loads(files[words[2]]))


def write():
    """Writes the case. Its answers are the page's, and those of runs the slow machine's."""
    day, told = through(None), [CASE]
    for words, said, files in day.told:
        lines = trace_of(words, files) if words[0] == "run" else said.removesuffix("\n").split("\n")
        status = 1 if lines[-1].startswith("refused ") else 3 if lines[-1].endswith(" halted") else 0
        told += ["$ " + " ".join(words), *lines, f"status {status}"]
    for file, lines in (("stdin", [CASE, *day.asked]), ("stdout", told)):
        text = lines_of(file)
        if case_in(text):
            text = text.replace(case_in(text), "")
        at = text.index("\n" + BEHIND) + 1
        with open(f"{tables.DATA}/{file}", "w", encoding="utf-8") as it:
            it.write(text[:at] + "\n".join(lines) + "\n" + text[at:])


def main(words):
    try:
        if words == ["--write"]:
            write()
        elif words:
            program = os.path.abspath(words[0])
            through(lambda call, room: subprocess.run(
                [program, *call], cwd=room, stdout=subprocess.PIPE, check=False).stdout.decode())
        else:
            compare()
    except Wrong as why:
        print(f"documents: {PAGE}: {why}", file=sys.stderr)
        return 1
    return 0


if __name__ == "__main__":
    sys.exit(main(sys.argv[1:]))
