#!/usr/bin/env python3
"""Compares tools/plan and tools/next_step with the table of calls.

Of each call in the table `reports` of crates/scj_tables that runs a program by a plan the verdict of tools/plan is what
the table shows. Of each call of `reports`, and of those below, tools/next_step finds words wrong exactly where the status
is 2.
"""
import importlib.machinery
import importlib.util
import os
import re
import sys

sys.dont_write_bytecode = True
TOP = os.path.dirname(os.path.dirname(os.path.realpath(__file__)))
DATA = f"{TOP}/crates/scj_tables"
# Words, parted by blanks, and whether they are a command, as scj answered them.
WORDS = """
no:
no: --help
no: check
no: chek A
no: run A.java
no: gen --size 0
no: gen --size 251
no: gen --size 05
no: gen
no: check --plan x A
yes: check -- -x
yes: check -
yes: gen --size=5
no: check --size 3 A
yes: run --plan - A
no: run --plan -x A
no: run --plan= A
no: -x check
no: gen --size 4 x
no: run --plan a --plan b A
no: gen --size -5
no: check 1 2 3 4 5 6 7 8 9 10 11 12 13 14 15 16 17
yes: check 1 2 3 4 5 6 7 8 9 10 11 12 13 14 15 16
no: gen --size=
no: check --pla x
yes: gen --size 5 --
no: -- gen --size 5
yes: -- check x
no: run --plan -- A
no: gen --size -
no: check -5
yes: check 5
no: gen --size -1.5
no: show
no: bounds
yes: bounds A -
no: bounds --plan p A
no: bounds --size 3 A
no: bound A
no: run --plan a b --size 3
no: check --=x
no: --plan
"""


def script(name):
    loader = importlib.machinery.SourceFileLoader(name, f"{TOP}/tools/{name}")
    made = importlib.util.module_from_spec(importlib.util.spec_from_loader(name, loader))
    loader.exec_module(made)
    return made


def table(file, name):
    with open(f"{DATA}/{file}", encoding="utf-8") as it:
        text = it.read()
    begin = text.index(f"%% {name}\n")
    end = text.find("\n%% ", begin)
    return text[begin : end + 1 if end >= 0 else len(text)].split("\n")[1:]


def bytes_of(line):
    text = line[:-1] if line.endswith("\\") else line + "\n"
    return re.sub(rb"\\x([0-9a-f]{2})", lambda it: bytes([int(it[1], 16)]), text.encode())


def data_file(name):
    with open(f"{DATA}/data/{name}", "rb") as it:
        return it.read()


def asked():
    """The calls of the table: the files that were written, the words, and whether something goes wrong outside."""
    files, is_failing, name = {}, False, None
    for line in table("stdin", "reports"):
        mark, _, rest = line.partition(" ")
        if mark == "==":
            files, is_failing, name = {}, False, None
        elif mark in ("--", "-<"):
            name = rest if mark == "--" else None
            files[rest] = b"" if name else data_file(rest)
        elif mark == "-*":
            name, files[rest.partition(" ")[2]] = None, b""
        elif mark == "-+":
            count, _, rest = rest.partition(" ")
            files[name] += bytes_of(rest) * int(count)
        elif mark == "!":
            is_failing, name = is_failing or not rest.startswith("room"), None
        elif mark == "$":
            yield dict(files), rest.split(" "), is_failing
            name = None
        elif mark == "~":
            yield {}, [], True
            name = None
        elif name:
            files[name] += bytes_of(line)


def told():
    """What each of these calls is answered: its status, and what it told."""
    for line in table("stdout", "reports"):
        found = re.fullmatch(r"status (\d+)(?:, told scj: (.*))?", line)
        if found:
            yield int(found[1]), found[2]


def calls():
    questions, answers = list(asked()), list(told())
    if len(questions) != len(answers):
        sys.exit(f"tables: {len(questions)} calls and {len(answers)} answers")
    return [(*it, *answer) for it, answer in zip(questions, answers)]


def main():
    plan, next_step = script("plan"), script("next_step")
    wrong, plans, words = [], 0, 0
    cases = []
    for files, call, is_failing, status, said in calls():
        if is_failing:
            continue
        words += 1
        if (next_step.what_is_wrong(call) is None) != (status != 2):
            wrong.append(f"words {call}: {next_step.what_is_wrong(call)} at status {status}")
        if call[0] == "run" and status in (0, 3, 4):
            cases.append((said if status == 4 else None, files[next_step.files_of(call)[-1]]))
    for line in WORDS.strip().split("\n"):
        words += 1
        is_command, _, call = line.partition(":")
        if (next_step.what_is_wrong(call.split()) is None) != (is_command == "yes"):
            wrong.append(f"words {call}: {next_step.what_is_wrong(call.split())}")
    for wanted, data in cases:
        plans += 1
        said, _, why = plan.verdict(data)
        if (f"plan {said}" if said is not None else None) != wanted or (said is not None and not why):
            wrong.append(f"plan {data[:300]!r}: {said} in place of {wanted}: {why}")
    for it in wrong:
        print(f"tables: {it}", file=sys.stderr)
    print(f"tables: {plans} plans and {words} calls, {len(wrong)} wrong")
    return 1 if wrong or plans < 400 or words < 500 else 0


if __name__ == "__main__":
    sys.exit(main())
