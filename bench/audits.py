#!/usr/bin/env python3
"""Times `audit` on traces of 64 MiB, the longest that are read: ordinary ones, and ones that make it keep or look up much.

    bench/audits.py [PROGRAM]     PROGRAM is called as ./scj is, which is the default

It prints seconds by the clock and of a processor, the least of three calls each, of the whole process, and the most
memory that it has at once. The status is 1 where an audit takes more than 2 seconds or 3 bytes of memory a byte.
"""
import itertools
import os
import subprocess
import sys
import tempfile
import time

LIMIT = 67_108_864
SECONDS, BYTES = 2.0, 3.0
CALLS = 3
UNITS = 10_000_000
LAST = f"{UNITS} stopped\n"
# A mission with a handler, and the same with 64.
BEGIN = "0 mission Main\n1 register 1 H 12\n2 exec\n"
BEGIN_MANY = "0 mission Main\n" + "".join(f"1 register {k} H{k} 12\n" for k in range(1, 65)) + "2 exec\n"
STARTED = "3 arrive 1 1\n3 run 1 1\n"


def filled(begin, lines):
    """A text that begins so and goes on with these lines as far as there is room, and its last line."""
    parts, length = [begin], len(begin)
    for line in lines:
        length += len(line)
        if length > LIMIT - len(LAST):
            break
        parts.append(line)
    return "".join(parts) + LAST


def ordinary():
    """Releases one after the other, each with a section and something printed."""
    for n in itertools.count(1):
        u = 10 * n
        yield (
            f"{u} arrive 1 {n}\n{u} run 1 {n}\n{u + 3} prio 1 20\n{u + 5} print level {n}\n{u + 6} prio 1 12\n"
            f"{u + 8} end 1 {n}\n{u + 9} idle\n"
        )


def lowered():
    """Releases that are started and then lowered, and never end."""
    for n in itertools.count(1):
        yield f"{n + 2} arrive 1 {n}\n{n + 2} run 1 {n}\n{n + 2} prio 1 1\n"


def arrivals(handlers):
    return (f"4 arrive {k} {n}\n" for n in itertools.count(2) for k in range(1, handlers + 1) if n > 1)


def names(letters):
    """10,000 names of so many letters, or of as few as they can have."""
    return [name + "x" * (letters - len(name)) for name in map(fire_name, range(10_000))]


def fire_name(number):
    digits = "ABCDEFGHIJKLMNOPQRSTUVWXYZ"  # no reserved word is written so
    return digits[number % 26] + (fire_name(number // 26 - 1) if number >= 26 else "")


def plan(fires=()):
    rows = "".join(f'[[fire]]\nat = 4\nhandler = "{name}"\n' for name in fires)
    return f"version = 1\nunits = {UNITS}\nstore = 0\n{rows}"


def misses(letters):
    fires = names(letters)
    return filled(BEGIN + STARTED, (f"4 miss {name}\n" for name in itertools.cycle(fires))), plan(fires)


def families():
    """Texts by their names, each with its plan."""
    raised = filled(BEGIN + STARTED, itertools.cycle(["4 prio 1 20\n", "4 prio 1 12\n"]))
    many = BEGIN_MANY + STARTED + "".join(f"4 arrive {k} 1\n" for k in range(2, 65))
    yield "ordinary lines", filled(BEGIN + "3 idle\n", ordinary()), plan()
    yield "arrivals without end", filled(BEGIN + STARTED, arrivals(1)), plan()
    yield "arrivals of 64 handlers", filled(many, arrivals(64)), plan()
    yield "changes of priority without end", raised, plan()
    yield "releases that are started and lowered", filled(BEGIN, lowered()), plan()
    yield "misses of 10,000 short names", *misses(1)
    yield "misses of 10,000 names of 64 bytes", *misses(64)
    yield "lines of 7 bytes", filled("", itertools.repeat("0 exec\n")), plan()
    for what, byte in ("one line", "x"), ("blanks", " "), ("digits", "7"), ("NUL bytes", "\0"), ("CR bytes", "\r"), ("line feeds", "\n"):
        yield what, byte * LIMIT, plan()


def call(program, folder):
    """The output, the least seconds of some calls by the clock and of a processor, and the most memory in bytes."""
    # A process counts the memory of the one that made it, so a small one makes it.
    words = ["/usr/bin/time", "-f", "%M %U %S", program, "audit", "--plan", "plan.toml", "trace"]
    rows = []
    for _ in range(CALLS):
        begin = time.perf_counter()
        done = subprocess.run(words, cwd=folder, capture_output=True, text=True, check=True)
        taken = time.perf_counter() - begin
        memory, user, system = done.stderr.split()[-3:]
        rows.append((taken, float(user) + float(system), 1024 * int(memory)))
    clock, processor, memory = zip(*rows)
    return done.stdout.strip(), min(clock), min(processor), max(memory)


def main(words):
    home = os.path.dirname(os.path.dirname(os.path.abspath(__file__)))
    if len(words) > 1 or words and words[0].startswith("-"):
        print(__doc__.strip())
        return 0 if words in (["--help"], ["-h"]) else 2
    program, missed = os.path.abspath(words[0]) if words else f"{home}/scj", False
    with tempfile.TemporaryDirectory() as folder:
        for name, trace, plan_text in families():
            for file, text in ("trace", trace), ("plan.toml", plan_text):
                with open(f"{folder}/{file}", "w", encoding="ascii", newline="") as out:
                    out.write(text)
            answer, seconds, processor, memory = call(program, folder)
            missed |= seconds > SECONDS or memory > BYTES * len(trace)
            print(
                f"{name}: {seconds:.2f} s, {processor:.2f} of a processor, {memory / len(trace):.2f} bytes a byte, {answer}",
                flush=True,
            )
    return 1 if missed else 0


if __name__ == "__main__":
    sys.exit(main(sys.argv[1:]))
