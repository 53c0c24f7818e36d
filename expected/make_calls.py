#!/usr/bin/env python3
"""Makes the cases among the reports of crates/scj_tables that run programs, and what they print.

    make_calls.py            writes them before the changes of a program, which are the last case
    make_calls.py --check    says whether they stand there, and ends with status 1 where they don't

The runs are those of runs/, whose traces were worked out by hand, and those of the examples that have a plan, whose
traces stand beside them. The other cases are written here: plans that are refused, plans at each bound, words, and
what goes wrong outside. What they have to print comes from docs/PLAN.md, by hand; the runs of the programs here are
short enough to be counted, but for those of 64 handlers and of readings, which the slow machine tells. The bounds of
declared rows, those of memory and what is wrong in a changed trace were worked out by hand, too; the bounds of the
examples are those of the slow version.
"""
import pathlib
import re
import sys
import tomllib

sys.dont_write_bytecode = True
import slow_bounds
import slow_machine
import table_files

HERE = pathlib.Path(__file__).resolve().parent
FIRST = "== run "
LAST = "== changes of a program\n"
ROOM = 65536
PLAN = "version = 1\nunits = 100\nstore = 64\n"
# What the sequencer does by itself in A.java: a safelet with an empty body, and no sequencer.
IDLE = ["8 fault NullPointer A.java:1", "8 halted"]


class Tables:
    """The lines of the two tables."""

    def __init__(self):
        self.asked, self.told = [], []

    def case(self, name, *lines):
        self.asked += ["== " + name, *lines]
        self.told.append("== " + name)

    def file(self, name, text):
        self.asked.append("-- " + name)
        self.asked += text.removesuffix("\n").split("\n") if text.endswith("\n") else (text + "\\").split("\n")

    def line(self, text):
        self.asked.append(text)

    def call(self, words, lines, status, told=None):
        self.asked.append("$ " + words)
        self.told += ["$ " + words, *lines, "status %d%s" % (status, ", told scj: " + told if told else "")]

    def plan(self, text, lines, status, told=None, sources="A.java"):
        """A call with a plan."""
        self.file("plan.toml", text)
        self.call("run --plan plan.toml " + sources, lines, status, told)


def status_of(trace):
    return 3 if trace[-1].endswith(" halted") else 0


# ---- the runs that were worked out by hand


def sources(folder):
    return [HERE.parent / line for line in (folder / "sources").read_text().split()]


def hand_made(tables):
    for folder in sorted((HERE / "runs").iterdir()):
        tables.case("run " + folder.name)
        paths, trace = sources(folder), (folder / "trace").read_text()
        for path in paths:
            tables.file(path.name, path.read_text())
        if len(trace) > ROOM:
            tables.line("! room %d" % len(trace))
        lines = trace.splitlines()
        names = " ".join(path.name for path in paths)
        tables.plan((folder / "plan.toml").read_text(), lines, status_of(lines), sources=names)
        if (folder / "areas").exists():
            areas = (folder / "areas").read_text().splitlines()
            tables.call("areas --plan plan.toml " + names, areas, status_of(areas))


def examples(tables):
    """The examples that have a plan."""
    for plan in sorted((HERE.parent / "examples").glob("*/plan.toml")):
        folder = "examples/" + plan.parent.name
        paths = ["%s/%s" % (folder, path.name) for path in sorted(plan.parent.glob("*.java"))]
        tables.case("run " + folder, *("-< " + path for path in paths + [folder + "/plan.toml"]))
        lines = (plan.parent / "trace.txt").read_text().splitlines()
        tables.call("run --plan %s/plan.toml %s" % (folder, " ".join(paths)), lines, status_of(lines))


def broken_examples(tables):
    """They are refused as by `check`, with the findings that their pages tell."""
    for folder in sorted((HERE.parent / "examples").glob("broken_*")):
        name, whole = "examples/" + folder.name, "examples/" + folder.name.removeprefix("broken_")
        paths = ["%s/%s" % (name, path.name) for path in sorted(folder.glob("*.java"))]
        tables.case("run " + name, *("-< " + path for path in paths + [whole + "/plan.toml"]))
        found = re.findall(r"^%s/\w+[.]java:\d+:\d+: .*$" % name, (folder / "README.md").read_text(), re.M)
        tables.call("run --plan %s/plan.toml %s" % (whole, " ".join(paths)), found + ["refused %d" % len(found)], 1)


# ---- generated programs


def generated(tables):
    tables.case("run a generated program", "-< A.java", "-- plan.toml", *PLAN.splitlines())
    for size, prints in (1, 10), (2, 20), (9, 90), (10, 100), (99, 990), (100, 1000), (250, 2500):
        tables.call("gen --size %d" % size, ["gen %d" % size, "prints %d" % prints, "50000 stopped"], 0)
    tables.call("gen --size=250", ["gen 250", "prints 2500", "50000 stopped"], 0)
    for words in ("gen", "gen --size", "gen --size 0", "gen --size 251", "gen --size 999", "gen --size 1000",
                  "gen --size 01", "gen --size +1", "gen --size -1", "gen --size 1.0", "gen --size a", "gen 250",
                  "gen --size 1 A.java", "gen --size 1 --plan plan.toml", "gen --size 1 --size 1", "Gen --size 1",
                  "check", "walk A.java"):
        tables.call(words, [], 2, "usage")
    tables.case("run a generated program, and the output fails", "! out 1")
    tables.call("gen --size 1", [], 6)


# ---- words


def words(tables):
    tables.case("run words", "-< A.java", "-- plan.toml", *PLAN.splitlines())
    for text in ("--plan plan.toml A.java", "A.java --plan plan.toml", "--plan=plan.toml A.java",
                 "--plan plan.toml -- A.java"):
        tables.call("run " + text, IDLE, 3)
    for text in ("run", "run A.java", "run --plan plan.toml", "run --plan A.java", "run A.java --plan",
                 "run --plan plan.toml --plan plan.toml A.java", "run --plan plan.toml --size 1 A.java",
                 "run --plan= A.java", "run --plan plan.toml ", "run 100 A.java", "Run --plan plan.toml A.java",
                 "run --units 5 --plan plan.toml A.java", "check --plan plan.toml A.java",
                 "show --plan plan.toml A.java", "help", "--help", "check -h A.java", "A.java check",
                 "check --pla plan.toml A.java"):
        tables.call(text, [], 2, "usage")
    tables.case("run with sources on both sides, and a file whose name begins with a dash", "-< A.java", "-- plan.toml",
                *PLAN.splitlines())
    tables.file("-B.java", "class B { }\n")
    tables.call("run -- A.java", [], 2, "usage")
    tables.call("check -- A.java -B.java", ["accepted"], 0)
    tables.call("check A.java -B.java", [], 2, "usage")
    tables.file("C.java", "class C { }\n")
    tables.call("run A.java --plan plan.toml C.java", IDLE, 3)
    names = ["C%d.java" % number for number in range(1, 17)]
    tables.case("run sixteen sources, and seventeen", "-< A.java", "-- plan.toml", *PLAN.splitlines())
    for number, name in enumerate(names, 1):
        tables.file(name, "class C%d { }\n" % number)
    tables.call("run --plan plan.toml A.java " + " ".join(names[:15]), IDLE, 3)
    tables.call("run --plan plan.toml %s A.java" % " ".join(names[:15]), IDLE, 3)
    tables.call("run --plan plan.toml A.java " + " ".join(names), [], 2, "usage")


# ---- plans


def with_value(key, value):
    """The plan with another value at a key, or with a key more."""
    lines = PLAN.splitlines()
    at = [number for number, line in enumerate(lines) if line.startswith(key + " ")]
    if at:
        lines[at[0]] = "%s = %s" % (key, value)
    else:
        lines.append("%s = %s" % (key, value))
    return "\n".join(lines) + "\n"


def without(key):
    return "".join(line + "\n" for line in PLAN.splitlines() if not line.startswith(key + " "))


OTHER_TYPES = ["1.0", "1e0", "inf", "nan", '"1"', "true", "[]", "[1]", "{ }", "{ a = 1 }", "1979-05-27", "07:32:00",
               "1979-05-27T07:32:00Z", "-1", "9223372036854775807", "-9223372036854775808"]


def numbers(tables):
    """The three keys that have to be there: missing, twice, of other types, and at each bound."""
    for key in "version", "units", "store":
        tables.case("run a plan with another " + key, "-< A.java")
        tables.plan(without(key), [], 4, "plan bad key " + key)
        tables.plan(PLAN + [line for line in PLAN.splitlines() if line.startswith(key)][0] + "\n", [], 4,
                    "plan not toml")
        for value in OTHER_TYPES:
            tables.plan(with_value(key, value), [], 4, "plan bad value " + key)
        for value in "", "9223372036854775808", "1 2", "0x", "01", "1__0", "one":
            tables.plan(with_value(key, value), [], 4, "plan not toml")
        tables.plan(PLAN.replace(key, key.capitalize()), [], 4, "plan bad key " + key.capitalize())
        tables.plan(without(key) + "[%s]\n" % key, [], 4, "plan bad value " + key)
        tables.plan(without(key) + "%s.a = 1\n" % key, [], 4, "plan bad value " + key)
    tables.case("run plans at their bounds", "-< A.java")
    for value in "0", "3", "-1", "10":
        tables.plan(with_value("version", value), [], 4, "plan bad value version")
    for value in "+1", "0x1", "0o1", "0b1", "0x0_1":
        tables.plan(with_value("version", value), IDLE, 3)
    for value, lines, status in [("0", ["0 stopped"], 0), ("-0", ["0 stopped"], 0), ("1", ["1 stopped"], 0),
                                 ("8", ["8 stopped"], 0), ("9", IDLE, 3), ("1_0", IDLE, 3), ("10000000", IDLE, 3)]:
        tables.plan(with_value("units", value), lines, status)
    tables.plan(with_value("units", "10000001"), [], 4, "plan bad value units")
    full = ["0 fault StoreFull A.java:1", "0 halted"]
    for value, lines in [("0", full), ("1", full), ("63", full), ("64", IDLE), ("67108864", IDLE)]:
        tables.plan(with_value("store", value), lines, 3)
    tables.plan(with_value("store", "67108865"), [], 4, "plan bad value store")


def fires(tables):
    tables.case("run plans with fires", "-< A.java")
    good = '{ at = 3, handler = "H" }'
    long_name = "N" * 64
    for row, lines in [("", []), (good, ["3 miss H"]), (good + ", ", ["3 miss H"]),
                       ('{ handler = "H", at = 3 }', ["3 miss H"]),
                       (good + ', { at = 0, handler = "_" }, { at = 3, handler = "$1" }',
                        ["0 miss _", "3 miss H", "3 miss $1"]),
                       ('{ at = 8, handler = "Q" }', ["8 miss Q"]),
                       ('{ at = 9, handler = "Q" }, { at = 9999999, handler = "H" }', []),
                       ('{ at = 0x3, handler = "%s" }' % long_name, ["3 miss " + long_name]),
                       ('{ at = 3, handler = "App" }, { at = 4, handler = "Object" }', ["3 miss App", "4 miss Object"]),
                       ('{ at = 3, handler = "Class" }', ["3 miss Class"]),
                       ('{ at = 3, handler = \'H\' }', ["3 miss H"])]:
        tables.plan(PLAN + "fire = [%s]\n" % row, lines + IDLE, 3)
    tables.plan(PLAN + "[[fire]]\nat = 3\nhandler = \"H\"\n[[fire]]\nat = 1\nhandler = \"K\"\n",
                ["1 miss K", "3 miss H"] + IDLE, 3)
    for value in OTHER_TYPES:
        if value != "[]":
            tables.plan(PLAN + "fire = %s\n" % value, [], 4, "plan bad value fire")
    for at in ["-1", "10000000", "1.0", '"1"', "true", "[1]", "{ }", "1979-05-27"]:
        tables.plan(PLAN + 'fire = [{ at = %s, handler = "H" }]\n' % at, [], 4, "plan bad value fire")
    for handler in ['""', '"%sN"' % long_name, '"1a"', '"a b"', '" H"', '"H "', '"a.b"', '"a-b"', '"class"', '"true"',
                    '"null"', '"int"', '"\\u00e9"', '"H\\n"', "1", "true", "[]", '["H"]', "{ }"]:
        tables.plan(PLAN + "fire = [{ at = 1, handler = %s }]\n" % handler, [], 4, "plan bad value fire")
    for row in ["{ }", "{ at = 1 }", '{ handler = "H" }', '{ at = 1, handler = "H", more = 1 }',
                '{ At = 1, handler = "H" }', "1", '"H"', "[]", "[%s]" % good, good + ", 1", good + ", { at = 1 }"]:
        tables.plan(PLAN + "fire = [%s]\n" % row, [], 4, "plan bad value fire")
    tables.plan(PLAN + 'fire = [{ at = 1, at = 1, handler = "H" }]\n', [], 4, "plan not toml")
    tables.plan(PLAN + 'fire = [{ at = 1, handler = "H", handler = "K" }]\n', [], 4, "plan not toml")
    tables.plan(PLAN + "fire = []\nfire = []\n", [], 4, "plan not toml")
    tables.plan(PLAN + "[[fire]]\nat = 1\n[[fire]]\nhandler = \"H\"\n", [], 4, "plan bad value fire")
    tables.plan(PLAN + "[fire]\nat = 1\nhandler = \"H\"\n", [], 4, "plan bad value fire")
    tables.plan(PLAN + "fire = []\n[[fire]]\nat = 1\nhandler = \"H\"\n", [], 4, "plan not toml")
    tables.plan(PLAN + "fires = []\n", [], 4, "plan bad key fires")


# ---- plans of version 2


SECOND = PLAN.replace("version = 1", "version = 2")
FROM_START = '{ at = 3, handler = "H", from = "start" }'
FROM_MISSION = '{ at = 3, handler = "H", from = "mission" }'
IN_FIRST = '{ at = 3, handler = "H" }'


def second_fires(tables):
    """A.java has no mission, so a fire from the start misses, and one from the mission never comes."""
    tables.case("run plans of version 2", "-< A.java")
    tables.plan(SECOND, IDLE, 3)
    tables.plan(SECOND + "reading = [{ port = 0, at = 0, value = 5 }]\n", IDLE, 3)
    for rows, lines in [("", []), (FROM_START, ["3 miss H"]), (FROM_MISSION, []),
                        ('{ from = "start", handler = "H", at = 3 }', ["3 miss H"]),
                        ("{ at = 3, handler = 'H', from = 'start' }", ["3 miss H"]),
                        ('{ at = 3, "handler" = "H", "from" = """start""" }', ["3 miss H"]),
                        (", ".join([FROM_START, FROM_MISSION.replace("H", "K"), FROM_START.replace("H", "L")]),
                         ["3 miss H", "3 miss L"]),
                        (FROM_MISSION.replace("3", "0") + ", " + FROM_START.replace("3", "0"), ["0 miss H"]),
                        (FROM_MISSION.replace("3", "9999999"), [])]:
        tables.plan(SECOND + "fire = [%s]\n" % rows, lines + IDLE, 3)
    tables.plan(SECOND + '[[fire]]\nat = 3\nhandler = "H"\nfrom = "start"\n[[fire]]\nat = 1\nfrom = "start"\n'
                'handler = "K"\n', ["1 miss K", "3 miss H"] + IDLE, 3)
    for value in "+2", "0x2", "0o2", "0b10", "0b1_0":
        tables.plan(with_value("version", value), IDLE, 3)
        tables.plan(with_value("version", value) + "fire = [%s]\n" % FROM_START, ["3 miss H"] + IDLE, 3)
    tables.plan("fire = [%s]\n%s" % (FROM_START, SECOND), ["3 miss H"] + IDLE, 3)


def second_refusals(tables):
    tables.case("run what is no plan of version 2", "-< A.java")
    for value in ['"Start"', '"start "', '" mission"', '"missions"', '"end"', '""', '"start\\n"', '"START"', "1", "1.0",
                  "true", "[]", '["start"]', "{ }", "1979-05-27"]:
        tables.plan(SECOND + 'fire = [{ at = 3, handler = "H", from = %s }]\n' % value, [], 4, "plan bad value fire")
    for rows in [IN_FIRST, FROM_START + ", " + IN_FIRST, IN_FIRST + ", " + FROM_MISSION, "{ }", '{ from = "start" }',
                 '{ at = 3, from = "start" }', '{ handler = "H", from = "start" }',
                 '{ at = 3, handler = "H", From = "start" }', '{ at = 3, handler = "H", from = "start", more = 1 }',
                 FROM_START.replace("3", "10000000"), FROM_START.replace("3", "-1"), FROM_START.replace("H", "class")]:
        tables.plan(SECOND + "fire = [%s]\n" % rows, [], 4, "plan bad value fire")
    for rows in FROM_START, FROM_MISSION, IN_FIRST + ", " + FROM_START, FROM_MISSION + ", " + IN_FIRST:
        tables.plan(PLAN + "fire = [%s]\n" % rows, [], 4, "plan bad value fire")
    tables.plan(SECOND + 'fire = [{ at = 3, handler = "H", from = "start", from = "start" }]\n', [], 4, "plan not toml")
    tables.case("run fires of version 2 under other versions", "-< A.java")
    for value in "0", "3", "-2", "2.0", "2e0", '"2"', "true", "[2]", "{ a = 2 }", "1979-05-27", "20":
        tables.plan(with_value("version", value) + "fire = [%s]\n" % FROM_START, [], 4, "plan bad value fire")
        tables.plan(with_value("version", value) + "fire = [%s]\n" % IN_FIRST, [], 4, "plan bad value version")
        tables.plan(with_value("version", value) + "fire = []\n", [], 4, "plan bad value version")
    tables.plan(without("version") + "fire = [%s]\n" % FROM_START, [], 4, "plan bad value fire")
    tables.plan(without("version") + "fire = [%s]\n" % IN_FIRST, [], 4, "plan bad key version")
    tables.plan(SECOND + 'from = "start"\n', [], 4, "plan bad key from")
    tables.plan(SECOND + 'from = "start"\nfire = [%s]\n' % IN_FIRST, [], 4, "plan bad value fire")
    tables.plan(SECOND + 'fires = [%s]\n' % FROM_START, [], 4, "plan bad key fires")
    tables.plan(SECOND + 'reading = [{ port = 0, at = 0, value = 5, from = "start" }]\n', [], 4, "plan bad value reading")
    for text, told in [("version = 2\n", "bad key units"), ("version = 2\nunits = 5\n", "bad key store"),
                       ("version = 2\nversion = 2\n", "not toml"), ("version = 1\nversion = 2\n", "not toml"),
                       (SECOND.replace("64", "-1"), "bad value store"), (SECOND + "a = 1\n", "bad key a")]:
        tables.plan(text, [], 4, "plan " + told)


# ---- plans that are migrated


def as_text(units, store, fires=(), readings=()):
    """A plan of version 2 as `toml` prints its table: keys in their order, and rows behind the other keys."""
    lines = [] if fires else ["fire = []"]
    lines += [] if readings else ["reading = []"]
    lines += ["store = %d" % store, "units = %d" % units, "version = 2"]
    for at, handler, begin in fires:
        lines += ["", "[[fire]]", "at = %d" % at, 'from = "%s"' % begin, 'handler = "%s"' % handler]
    for port, at, value in readings:
        lines += ["", "[[reading]]", "at = %d" % at, "port = %d" % port, "value = %d" % value]
    return lines


def migrations(tables):
    """What is printed, and that it runs as the plan before. The row of 65 fires is that of runs/lost."""
    folder = HERE / "runs" / "lost"
    tables.case("migrate the plan of lost", *("-< programs/empty_handler/" + name for name in ("B.java", "C.java")))
    tables.file("plan.toml", (folder / "plan.toml").read_text())
    text = as_text(200, 600, [(50, "H", "start")] * 65)
    tables.call("migrate --plan plan.toml", text, 0)
    trace = (folder / "trace").read_text().splitlines()
    words = "run --plan %s programs/empty_handler/B.java programs/empty_handler/C.java"
    tables.call(words % "plan.toml", trace, status_of(trace))
    tables.plan("\n".join(text) + "\n", trace, status_of(trace),
                sources="programs/empty_handler/B.java programs/empty_handler/C.java")
    tables.call("migrate --plan plan.toml", text, 0)
    tables.case("migrate examples/pump_station", "-< examples/pump_station/plan.toml")
    tables.call("migrate --plan examples/pump_station/plan.toml",
                as_text(13000, 4096, [(2500, "Alarm", "start"), (7000, "Alarm", "start")],
                        [(1, 0, 50), (1, 4000, 97), (1, 7500, 30)]), 0)
    tables.case("migrate plans", "-< A.java")

    def migrated(text, lines):
        tables.file("plan.toml", text)
        tables.call("migrate --plan plan.toml", lines, 0)
    for front in PLAN, SECOND:
        migrated(front, as_text(100, 64))
        migrated("# a plan\n" + front + "reading = []\nfire = []\n", as_text(100, 64))
        migrated(front + "reading = [{ value = 0x10, at = 0, port = 0 }]\n", as_text(100, 64, readings=[(0, 0, 16)]))
    migrated("version = 1\nunits = 10_000_000\nstore = 0x400_0000\n", as_text(10000000, 67108864))
    migrated("version = 1\nunits = 0\nstore = +0\n", as_text(0, 0))
    migrated(PLAN + 'fire = [{ at = 9, handler = "K" }, { at = 3, handler = "H" }, { at = 9, handler = "_$1" }]\n',
             as_text(100, 64, [(9, "K", "start"), (3, "H", "start"), (9, "_$1", "start")]))
    migrated(SECOND + "fire = [%s, %s]\n" % (FROM_MISSION, FROM_START),
             as_text(100, 64, [(3, "H", "mission"), (3, "H", "start")]))
    rows = [(255, 9999999, 2147483647), (0, 0, -2147483648), (0, 0, 7)]
    migrated(PLAN + "reading = [%s]\n" % ", ".join("{ port = %d, at = %d, value = %d }" % row for row in rows)
             + 'fire = [{ at = 9999999, handler = "%s" }]\n' % ("N" * 64),
             as_text(100, 64, [(9999999, "N" * 64, "start")], rows))
    for text, told in [("version = 1\nunits = ", "not toml"), ("", "bad key version"),
                       (PLAN + "fire = [%s]\n" % FROM_START, "bad value fire"),
                       (SECOND + "fire = [%s]\n" % IN_FIRST, "bad value fire"), (with_value("version", "3"), "bad value version"),
                       (PLAN + "a = 1\n", "bad key a"), (with_value("units", "-1"), "bad value units"),
                       (ONE_ROW, "bad key handler"), ("version = 2\nunits = 5\n", "bad key store")]:
        tables.file("plan.toml", text)
        tables.call("migrate --plan plan.toml", [], 4, "plan " + told)


def migrations_outside(tables):
    """Words, limits, and what goes wrong outside."""
    text = as_text(100, 64)
    tables.case("migrate with other words, and where a file can't be had", "-< A.java", "-- plan.toml", *PLAN.splitlines())
    tables.line("-* 1048577 long")
    tables.line("-* 1048576 blank")
    for words in "--plan plan.toml", "--plan=plan.toml", "--plan plan.toml --":
        tables.call("migrate " + words, text, 0)
    for words in ("", " plan.toml", " --plan", " --plan=", " --plan plan.toml A.java", " --plan plan.toml plan.toml",
                  " --plan plan.toml --size 5", " --size 5", " --plan plan.toml --plan plan.toml"):
        tables.call("migrate" + words, [], 2, "usage")
    for words in "Migrate --plan plan.toml", "migrat --plan plan.toml", "check --plan plan.toml":
        tables.call(words, [], 2, "usage")
    tables.call("migrate --plan none", [], 5, "read none")
    tables.call("migrate --plan long", [], 8, "too long long")
    tables.call("migrate --plan blank", [], 4, "plan bad key version")
    tables.call("migrate --plan A.java", [], 4, "plan not toml")
    size = sum(len(line) + 1 for line in text)
    tables.line("! room %d" % (size - 1))
    tables.call("migrate --plan plan.toml", [], 6)
    tables.line("! room %d" % size)
    tables.call("migrate --plan plan.toml", text, 0)
    tables.line("! out 1")
    tables.call("migrate --plan plan.toml", [], 6)
    tables.line("! err 1")
    tables.call("migrate --plan none", [], 6)
    tables.call("migrate --plan blank", [], 6)
    tables.case("migrate, and the load fails", "-- plan.toml", *PLAN.splitlines(), "! load 1")
    tables.call("migrate --plan plan.toml", [], 5, "read plan.toml")
    tables.call("migrate --plan plan.toml", text, 0)


# ---- readings


READER = """class App implements Safelet {
  public MissionSequencer getSequencer() { return null; }
  public long immortalMemorySize() { return 64; }
  public void initializeApplication() { Trace.print("a", Device.read(0)); Trace.print("b", Device.read(255)); }
}
"""


def readings(tables):
    tables.case("run plans with readings")
    tables.file("R.java", READER)
    good = "{ port = 0, at = 0, value = 5 }"

    def taken(rows, form="reading = [%s]\n"):
        text = PLAN + form % rows
        lines = slow_machine.trace(["R.java"], [READER], tomllib.loads(text))
        tables.plan(text, lines, status_of(lines), sources="R.java")
    for rows in ["", good, "{ value = 5, at = 0, port = 0 }", "{ port = 255, at = 0, value = 2147483647 }",
                 "{ port = 0, at = 5, value = -2147483648 }", "{ port = 0, at = 4, value = 7 }, " + good,
                 "{ port = 0, at = 6, value = 7 }", "{ port = 0, at = 7, value = 7 }",
                 "{ port = 0, at = 9999999, value = 7 }, " + good,
                 "{ port = 0, at = 3, value = 8 }, { port = 0, at = 3, value = 9 }, { port = 255, at = 1, value = 3 }",
                 "{ port = 1, at = 0, value = 7 }",
                 "{ port = 0, at = 0, value = -1 }, { port = 255, at = 8, value = 1 }"]:
        taken(rows)
    taken("port = 0\nat = 0\nvalue = 5\n", "[[reading]]\n%s")

    def refused(rows):
        tables.plan(PLAN + "reading = [%s]\n" % rows, [], 4, "plan bad value reading", sources="R.java")
    for key, least, most in ("port", 0, 255), ("at", 0, 9999999), ("value", -2147483648, 2147483647):
        for value in [str(least - 1), str(most + 1), "1.0", '"1"', "true", "[1]", "{ }", "1979-05-27"]:
            row = dict(port="1", at="1", value="1") | {key: value}
            refused("{ %s }" % ", ".join("%s = %s" % pair for pair in row.items()))
        refused("{ %s }" % ", ".join("%s = 1" % other for other in ("port", "at", "value") if other != key))
    for rows in ["{ }", "{ port = 1, at = 1, value = 1, more = 1 }", "1", "[]", good + ", 1", good + ", { }"]:
        refused(rows)
    tables.plan(PLAN + "readings = []\n", [], 4, "plan bad key readings", sources="R.java")
    for value in OTHER_TYPES:
        if value != "[]":
            tables.plan(PLAN + "reading = %s\n" % value, [], 4, "plan bad value reading", sources="R.java")
    tables.plan(PLAN + "[reading]\nport = 0\nat = 0\nvalue = 5\n", [], 4, "plan bad value reading", sources="R.java")
    for text in ["reading = []\nreading = []\n", "reading = []\n[[reading]]\nport = 0\nat = 0\nvalue = 5\n",
                 *("reading = [{ port = 0, at = 0, value = 5, %s = 5 }]\n" % key for key in ("port", "at", "value"))]:
        tables.plan(PLAN + text, [], 4, "plan not toml", sources="R.java")


def texts(tables):
    """Texts that are no plan, and which mistake is told."""
    tables.case("run a controller by no plan", "-< B.java", "-< P.java")
    for text, told in [("version = 1\nunits = 1.5\nstore = 1000\n", "plan bad value units"),
                       ("version = 1\nunits = ", "plan not toml"), ("version = 1\nunits = 5\n", "plan bad key store")]:
        tables.plan(text, [], 4, told, sources="B.java P.java")
    tables.plan("version = 1\nunits = 0\nstore = 1000\n", ["0 stopped"], 0, sources="B.java P.java")
    tables.case("run texts that are no plan", "-< A.java")
    for text in ["version = 1\nunits = \n", "version = 1\nversion = 1\n", "version\n", "= 1\n", "{ }\n", "[version\n",
                 "version = 1 units = 5\n", "version: 1\n", PLAN + "# \\x01\n", PLAN + "# \\xff\n", "\\xff\n",
                 PLAN + '"a" = "\\xc3"\n', "class A { }\n"]:
        tables.plan(text, [], 4, "plan not toml")
    for text, key in [("", "version"), ("# nothing\n", "version"), ("version = 1\nunits = 5\n", "store"),
                      ("version = 1\nstore = 5\n", "units"), ("units = 5\nstore = 5\n", "version"),
                      ("version = 1\n", "units"), ("unit = 5\n", "unit"), ("a.b = 1\n", "a"), ("[a.b]\n", "a"),
                      (PLAN + "a = 1\nB = 1\n", "B"), (PLAN + "zeta = 1\n", "zeta"), (PLAN + '"" = 1\n', ""),
                      (PLAN + '"a b" = 1\n', "a b"), (PLAN + '"version " = 1\n', "version "),
                      ("alpha = 1\nunits = -1\n", "alpha"), (PLAN + "at = 1\n", "at")]:
        tables.plan(text, [], 4, "plan bad key " + key)
    # a key is told on one line, and no more than 256 bytes of it
    for key, told in [("a\\nb", "a?b"), ("\\n", "?"), ("\\u0000", "?"), ("a\\tb\\r", "a?b?"), ("\\u001f\\u007f", "??"),
                      ("\\u0020 \\u007e", "  ~"), ("\\e[31m", "?[31m"), ("\\x5cx1b", "?"), ("\\u00e9", "\u00e9"),
                      ("a\\nscj: plan bad key b", "a?scj: plan bad key b"), ("a" * 256, "a" * 256),
                      ("a" * 257, "a" * 256), ("a" * 255 + "\\n" + "b" * 9, "a" * 255 + "?"),
                      ("\\n" * 256 + "b", "?" * 256), ("\\xc3\\xa9" * 130, "\u00e9" * 128)]:
        tables.plan(PLAN + '"%s" = 1\n' % key, [], 4, "plan bad key " + told)
    # forms that other readers of TOML take or refuse
    tables.plan("\\xef\\xbb\\xbf" + PLAN, IDLE, 3)
    tables.plan(PLAN + 'fire = [{\n  at = 3, # in braces\n  handler = "H",\n}]\n', ["3 miss H"] + IDLE, 3)
    for row in "at\n= 3", "at =\n3", "at = # in braces\n3":
        tables.plan(PLAN + 'fire = [{ %s, handler = "H" }]\n' % row, [], 4, "plan not toml")
    for value in "07:32", "23:59:60", "0000-01-01", '"\\e"', '"\\x5cx1b"', "1e308", "{ a = 1,\n }":
        tables.plan(with_value("units", value), [], 4, "plan bad value units")
    for value in "1e999", "-1e999", "24:00:00", "07:60":
        tables.plan(with_value("units", value), [], 4, "plan not toml")
    for text, key in [("units = -1\n", "units"), ("zeta = 1\nunits = -1\n", "units"),
                      ("units = -1\nversion = 2\nstore = -1\nfire = 1\nreading = 1\n", "fire"),
                      ("units = -1\nversion = 2\nstore = -1\nreading = 1\n", "reading"),
                      ("units = -1\nversion = 2\nstore = -1\n", "store"), ("units = -1\nversion = 2\n", "units")]:
        tables.plan(text, [], 4, "plan bad value " + key)
    for text in [PLAN.removesuffix("\n"), PLAN.replace("\n", "\\x0d\n"), "\n\n# a\n" + PLAN + "\n",
                 "store = 64\nunits = 100\nversion = 1\n", PLAN.replace(" = ", "="),
                 PLAN.replace("version", '"version"'), PLAN.replace("units", "'units'"),
                 PLAN + "# \\xc3\\xa9\n"]:
        tables.plan(text, IDLE, 3)


def large(tables):
    """Plans of as many bytes, rows and brackets as there may be, and of one more."""
    tables.case("run large plans", "-< A.java")
    for copies, lines, status, told in (1048576 - len(PLAN) - 1, IDLE, 3, None), (
            1048577 - len(PLAN) - 1, [], 8, "too long plan.toml"):
        tables.file("plan.toml", PLAN + "#")
        tables.line("-+ %d x\\" % copies)
        tables.call("run --plan plan.toml A.java", lines, status, told)
    for key, row in ("fire", '{ at = 9000000, handler = "H" },'), ("reading", "{ port = 1, at = 1, value = 1 },"):
        for count, lines, status, told in (10000, IDLE, 3, None), (10001, [], 4, "plan bad value " + key):
            tables.file("plan.toml", PLAN + key + " = [\n")
            tables.line("-+ %d %s" % (count, row))
            tables.line("]")
            tables.call("run --plan plan.toml A.java", lines, status, told)
    for ending in False, True:
        tables.file("plan.toml", "version = 1\nunits = ")
        tables.line("-+ 100000 [\\")
        if ending:
            tables.line("-+ 100000 ]\\")
        tables.call("run --plan plan.toml A.java", [], 4, "plan not toml")
    for text in "[", "{ a = ":
        tables.file("plan.toml", "" if text == "[" else "a = ")
        tables.line("-+ 100000 %s\\" % text)
        tables.call("run --plan plan.toml A.java", [], 4, "plan not toml")
    for depth, told in (10, "plan bad value units"), (80, "plan bad value units"), (81, "plan not toml"):
        tables.plan(with_value("units", "[" * depth + "]" * depth), [], 4, told)
        tables.plan(with_value("units", "{ a = " * depth + "1" + " }" * depth), [], 4, told)
        tables.plan(with_value("units", "[{ a = " * (depth // 2) + "[" * (depth % 2) + "1" + "]" * (depth % 2)
                               + " }]" * (depth // 2)), [], 4, told)
    for parts, told in (80, "plan bad key a"), (81, "plan not toml"):
        tables.plan(PLAN + ".".join("a" * parts) + " = 1\n", [], 4, told)
        tables.plan(PLAN + "[%s]\n" % ".".join("a" * parts), [], 4, told)
    for bracket, other in ("[", "]"), ("{ a = ", " }"):
        tables.file("plan.toml", PLAN + "reading = ")
        tables.line("-+ 100000 %s\\" % bracket)
        tables.line("-+ 100000 %s\\" % other)
        tables.call("run --plan plan.toml A.java", [], 4, "plan not toml")


# ---- what goes wrong outside, and in which order it is told


def outside(tables):
    for name in "ordinary_use", "ends_itself":
        folder = HERE / "runs" / name
        trace = (folder / "trace").read_text().splitlines()
        paths = sources(folder)
        call = "run --plan plan.toml " + " ".join(path.name for path in paths)

        def begin(what):
            tables.case("run %s, and %s" % (name, what))
            for path in paths:
                tables.file(path.name, path.read_text())
            tables.file("plan.toml", (folder / "plan.toml").read_text())
        begin("each put fails")
        for number in range(1, 51):
            tables.line("! out %d" % number)
            fails = number <= len(trace)
            tables.call(call, trace[:number - 1], 6 if fails else status_of(trace))
        begin("the room ends")
        for room in 0, 1, len(trace[0]), len(trace[0]) + 1, len(trace[0]) + 2 + len(trace[1]):
            tables.line("! room %d" % room)
            held = [line for number, line in enumerate(trace)
                    if sum(len(before) + 1 for before in trace[:number + 1]) <= room]
            tables.call(call, held, 6)
        for number, file in enumerate([path.name for path in paths] + ["plan.toml"], 1):
            begin("load %d fails" % number)
            tables.line("! load %d" % number)
            tables.call(call, [], 5, "read " + file)
            tables.call(call, trace, status_of(trace))


def order(tables):
    tables.case("run what is refused in several ways", "-< A.java", "-- plan.toml", *PLAN.splitlines())
    tables.file("Q.java", "class Q { int a; int a; }\n")
    tables.file("bad.toml", "units = 1\n")
    tables.line("-* 1048577 long")
    broken = ["Q.java:1:22: C4 field twice", "refused 1"]
    for words, lines, status, told in [
            ("--plan plan.toml A.java Q.java", broken, 1, None), ("--plan bad.toml A.java Q.java", broken, 1, None),
            ("--plan none A.java", [], 5, "read none"), ("--plan none A.java Q.java", [], 5, "read none"),
            ("--plan none none.java", [], 5, "read none.java"),
            ("--plan plan.toml A.java none.java", [], 5, "read none.java"),
            ("--plan long A.java Q.java", [], 8, "too long long"), ("--plan plan.toml long", [], 8, "too long long"),
            ("--plan long none.java", [], 5, "read none.java"), ("--plan none long", [], 8, "too long long"),
            ("--plan bad.toml A.java", [], 4, "plan bad key version"), ("--plan A.java A.java", [], 4, "plan not toml"),
            ("--plan plan.toml plan.toml", ["plan.toml:1:1: P1 not in the grammar", "refused 1"], 1, None)]:
        tables.call("run " + words, lines, status, told)
    tables.case("run what is refused, and the telling fails", "-< A.java", "-- bad.toml", "units = -1", "! err 1")
    for words in "--plan bad.toml A.java", "--plan none A.java", "A.java":
        tables.call("run " + words, [], 6)
    tables.case("run what is refused, and the first put fails", "-< A.java")
    tables.file("bad.toml", "units = -1\n")
    tables.file("Q.java", "class Q { int a; int a; }\n")
    tables.line("! out 1")
    tables.call("run --plan bad.toml A.java Q.java", [], 6)
    tables.call("run --plan bad.toml A.java", [], 4, "plan bad value units")


# ---- limits of a run


MANY = """@DefineScope(name="M", parent="IMMORTAL") class Main extends Mission {
  public long missionMemorySize() { return 4000; }
  public void initialize() { for (int i = 0; i < COUNT; i++) new H().register(); }
}
@Scope("M") @DefineScope(name="P", parent="M") class H extends AperiodicEventHandler {
  H() { super(new PriorityParameters(7), new AperiodicParameters(), new StorageParameters(0)); }
  public void handleAsyncEvent() { }
}
"""


def limits(tables):
    front = (HERE.parent / "crates/scj_tables/data/programs/ordinary_use/B.java").read_text()
    plan = 'version = 1\nunits = 2000\nstore = 5000\nfire = [{ at = 1500, handler = "H" }]\n'
    for count in 64, 65:
        text = MANY.replace("COUNT", str(count))
        lines = slow_machine.trace(["B.java", "C.java"], [front, text], tomllib.loads(plan))
        tables.case("run %d handlers" % count)
        tables.file("B.java", front)
        tables.file("C.java", text)
        tables.plan(plan, lines, status_of(lines), sources="B.java C.java")


# ---- declared rows


HANDLER_KEYS = "priority", "cost", "gap", "section", "ceiling", "bound"
ORDINARY_USE = [(18, 9, 2000, 3, 20), (12, 28, 2000, 4, 20), (10, 9, 2500, 3, 20)]
ONE_ROW = "version = 1\n[[handler]]\npriority = 5\ncost = 4\ngap = 9\nsection = 2\nceiling = 7\nbound = 4\n"


def declared(rows, bounds=()):
    """The text of rows, each a priority, a cost, a gap, a section and a ceiling, with bounds where they are given."""
    text = "version = 1\n"
    for number, row in enumerate(rows):
        pairs = list(zip(HANDLER_KEYS, row + tuple(bounds[number:number + 1])))
        text += "[[handler]]\n" + "".join("%s = %d\n" % pair for pair in pairs)
    return text


def responses(tables):
    def respond(rows, lines):
        tables.file("rows.toml", declared(rows))
        tables.call("respond --plan rows.toml", ["%d %s" % pair for pair in enumerate(lines, 1)], 0)

    def confirm(rows, bounds, line):
        tables.file("rows.toml", declared(rows, bounds))
        tables.call("confirm --plan rows.toml", [line], 0)

    def bound(units, block, own, other):
        return "bound %d block %d own %d other %d" % (units, block, own, other)
    tables.case("respond to the rows of ordinary use, and confirm bounds")
    respond(ORDINARY_USE, [bound(13, 4, 9, 0), bound(40, 3, 28, 9), bound(46, 0, 9, 37)])
    for bounds, line in [((13, 40, 46), "yes"), ((13, 39, 46), "no"), ((13, 41, 47), "yes"), ((12, 40, 46), "no"),
                         ((0, 40, 0), "yes"), ((), "yes"), ((2000, 2000, 2500), "yes"), ((2001, 40, 46), "no"),
                         ((13, 40, 2501), "no")]:
        confirm(ORDINARY_USE, bounds, line)
    tables.case("respond to rows that meet their gap, and to rows that don't")
    respond([(1, 1, 1, 0, 1)], [bound(1, 0, 1, 0)])
    respond([(1, 2, 1, 0, 1)], ["none"])
    confirm([(1, 2, 1, 0, 1)], (0,), "yes")
    confirm([(1, 2, 1, 0, 1)], (1,), "no")
    confirm([(1, 2, 1, 0, 1)], (2,), "no")
    respond([(5, 3, 10, 0, 5), (5, 4, 10, 0, 5)], [bound(7, 0, 3, 4), bound(7, 0, 4, 3)])
    respond([(5, 3, 6, 0, 5), (5, 4, 10, 0, 5)], ["none", bound(10, 0, 4, 6)])
    respond([(9, 3, 5, 0, 9), (8, 4, 40, 0, 8)], [bound(3, 0, 3, 0), bound(10, 0, 4, 6)])
    respond([(9, 3, 5, 0, 9), (8, 4, 10, 0, 8)], [bound(3, 0, 3, 0), bound(10, 0, 4, 6)])
    respond([(9, 3, 5, 0, 9), (8, 5, 10, 0, 8)], [bound(3, 0, 3, 0), "none"])
    respond([(2, 10000000, 10000000, 0, 2)], [bound(10000000, 0, 10000000, 0)])
    respond([(2, 10000000, 9999999, 0, 2)], ["none"])
    tables.case("respond to rows that may be blocked")
    respond([(10, 2, 20, 0, 10), (4, 5, 50, 5, 10), (3, 6, 60, 6, 9)],
            [bound(7, 5, 2, 0), bound(13, 6, 5, 2), bound(13, 0, 6, 7)])
    respond([(10, 2, 20, 2, 20), (10, 5, 50, 5, 20)], [bound(7, 0, 2, 5), bound(7, 0, 5, 2)])
    respond([(28, 1, 9, 0, 28), (1, 9, 99, 9, 28)], ["none", bound(11, 0, 9, 2)])
    tables.case("respond to as many rows as there may be")
    respond([(1, 1, 64, 0, 1)] * 64, [bound(64, 0, 1, 63)] * 64)
    respond([(1, 1, 63, 0, 1)] * 64, ["none"] * 64)
    tables.file("rows.toml", declared([(1, 1, 64, 0, 1)] * 65))
    tables.call("respond --plan rows.toml", [], 4, "plan bad value handler")


def no_rows(tables):
    """Texts that declare no rows, and which mistake is told."""
    tables.case("respond to texts that declare no rows")

    def refused(text, told):
        tables.file("rows.toml", text)
        tables.call("respond --plan rows.toml", [], 4, "plan " + told)
        tables.call("confirm --plan rows.toml", [], 4, "plan " + told)
    for text in "version = 1\nhandler = \n", "version = 1\nversion = 1\n", "\\xff\n", "[[handler]\n":
        refused(text, "not toml")
    for text, key in [("", "version"), ("version = 1\n", "handler"), (ONE_ROW.replace("version = 1\n", ""), "version"),
                      ("rows = 1\n" + ONE_ROW, "rows"), ("units = 1\nversion = 2\n", "units"), (PLAN, "store"),
                      (ONE_ROW.replace("handler", "Handler"), "Handler"), ('"a\\nb" = 1\n' + ONE_ROW, "a?b"),
                      ('"%s" = 1\n' % ("a" * 257) + ONE_ROW, "a" * 256)]:
        refused(text, "bad key " + key)
    for value in "0", "2", "1.0", '"1"', "true", "[1]":
        refused(ONE_ROW.replace("version = 1", "version = " + value), "bad value version")
    for value in "1", '"a"', "[]", "[1]", "{ }", "[{ }]", "[[]]":
        refused("version = 1\nhandler = %s\n" % value, "bad value handler")
    for key, values in [("priority", ("0", "29", "-1", "8")), ("cost", ("0", "10000001", "1")),
                        ("gap", ("0", "10000001", "-1")), ("section", ("-1", "5")), ("ceiling", ("0", "4", "29")),
                        ("bound", ("-1", "10000001"))]:
        row = [line for line in ONE_ROW.splitlines() if line.startswith(key)][0]
        for value in values + ("1.0", '"1"', "true", "[1]", "{ }", "1979-05-27"):
            refused(ONE_ROW.replace(row, "%s = %s" % (key, value)), "bad value handler")
        if key != "bound":
            refused(ONE_ROW.replace(row + "\n", ""), "bad value handler")
    refused(ONE_ROW + "more = 1\n", "bad value handler")
    tables.case("respond to rows at their bounds")
    for key, value, line in [("priority", "1", "bound 4 block 0 own 4 other 0"),
                             ("priority", "7", "bound 4 block 0 own 4 other 0"),
                             ("cost", "2", "bound 2 block 0 own 2 other 0"),
                             ("gap", "10000000", "bound 4 block 0 own 4 other 0"), ("gap", "1", "none"),
                             ("section", "0", "bound 4 block 0 own 4 other 0"),
                             ("section", "4", "bound 4 block 0 own 4 other 0"),
                             ("ceiling", "5", "bound 4 block 0 own 4 other 0"),
                             ("ceiling", "28", "bound 4 block 0 own 4 other 0"),
                             ("bound", "10000000", "bound 4 block 0 own 4 other 0")]:
        row = [text for text in ONE_ROW.splitlines() if text.startswith(key)][0]
        tables.file("rows.toml", ONE_ROW.replace(row, "%s = %s" % (key, value)))
        tables.call("respond --plan rows.toml", ["1 " + line], 0)


def rows_outside(tables):
    """Words, and what goes wrong outside."""
    tables.case("respond with other words, and where a file can't be had", "-- rows.toml", *ONE_ROW.splitlines())
    tables.file("units.toml", PLAN)
    tables.line("-* 1048577 long")
    tables.line("-* 1048576 blank")
    for mode, line in ("respond", "1 bound 4 block 0 own 4 other 0"), ("confirm", "yes"):
        for words in "--plan rows.toml", "--plan=rows.toml":
            tables.call("%s %s" % (mode, words), [line], 0)
        for words in ("", " rows.toml", " --plan", " --plan=", " --plan rows.toml rows.toml",
                      " --plan rows.toml --size 5"):
            tables.call(mode + words, [], 2, "usage")
        tables.call(mode + " --plan none", [], 5, "read none")
        tables.call(mode + " --plan long", [], 8, "too long long")
        tables.call(mode + " --plan blank", [], 4, "plan bad key version")
        tables.line("! out 1")
        tables.call(mode + " --plan rows.toml", [], 6)
        tables.line("! out 2")
        tables.call(mode + " --plan rows.toml", [line], 0)
        tables.line("! room %d" % len(line))
        tables.call(mode + " --plan rows.toml", [], 6)
        tables.line("! room %d" % ROOM)
    tables.line("! err 1")
    tables.call("respond --plan none", [], 6)
    tables.call("confirm --plan units.toml", [], 6)
    tables.case("respond, and the load fails", "-- rows.toml", *ONE_ROW.splitlines(), "! load 1", "! load 2")
    tables.call("respond --plan rows.toml", [], 5, "read rows.toml")
    tables.call("confirm --plan rows.toml", [], 5, "read rows.toml")
    tables.call("confirm --plan rows.toml", ["yes"], 0)


# ---- faults that are certain


def faults(tables):
    """The programs of faults/, with the faults that were found in them by hand."""
    for wanted in sorted((HERE / "faults").glob("*.want")):
        name = wanted.stem + ".java"
        tables.case("faults of " + name)
        tables.file(name, (HERE / "faults" / name).read_text())
        tables.call("faults " + name, wanted.read_text().splitlines(), 0)
    for folder in sorted((HERE.parent / "examples").glob("broken_*")):
        name = "examples/" + folder.name
        paths = ["%s/%s" % (name, path.name) for path in sorted(folder.glob("*.java"))]
        tables.case("faults of " + name, *("-< " + path for path in paths))
        found = re.findall(r"^%s/\w+[.]java:\d+:\d+: .*$" % name, (folder / "README.md").read_text(), re.M)
        tables.call("faults " + " ".join(paths), found + ["refused %d" % len(found)], 1)


DIVIDES = "class D { static int f() { return 1 / 0; } }\n"


def faults_outside(tables):
    """Several files, words, and what goes wrong outside."""
    tables.case("faults of several files", "-< A.java", "-- D.java", *DIVIDES.splitlines())
    tables.file("E.java", DIVIDES.replace("D", "E").replace("1 / 0", "f() % 0"))
    tables.file("Q.java", "class Q { int a; int a; }\n")
    tables.line("-* 1048577 long")
    divides, takes = "D.java:1:37: DivideByZero", "E.java:1:39: DivideByZero"
    for words, lines in [("A.java", []), ("A.java D.java", [divides]), ("D.java A.java E.java", [divides, takes]),
                         ("-- E.java D.java A.java", [takes, divides])]:
        tables.call("faults " + words, lines + ["faults %d" % len(lines)], 0)
    tables.call("faults A.java Q.java D.java", ["Q.java:1:22: C4 field twice", "refused 1"], 1)
    for words in "", " --plan A.java", " --plan A.java D.java", " --size 5 A.java", " " + "A.java " * 16 + "A.java":
        tables.call("faults" + words, [], 2, "usage")
    tables.call("faults none A.java", [], 5, "read none")
    tables.call("faults A.java long none", [], 8, "too long long")
    tables.line("! room 8")
    tables.call("faults A.java", [], 6)
    tables.line("! room 9")
    tables.call("faults A.java", ["faults 0"], 0)
    tables.line("! out 1")
    tables.call("faults A.java", [], 6)
    tables.call("faults A.java Q.java", [], 6)
    tables.line("! err 1")
    tables.call("faults none", [], 6)
    tables.case("faults, and a load fails", "-< A.java", "-- D.java", *DIVIDES.splitlines(), "! load 2")
    tables.call("faults A.java D.java", [], 5, "read D.java")
    tables.call("faults A.java D.java", [divides, "faults 1"], 0)


# ---- bounds of memory


def bounds(tables):
    """The programs of bounds/, with what was worked out of each by hand, and the examples, by the slow version."""
    for wanted in sorted((HERE / "bounds").glob("*.want")):
        name = wanted.stem + ".java"
        tables.case("bounds of " + name)
        tables.file(name, (HERE / "bounds" / name).read_text())
        tables.call("bounds " + name, wanted.read_text().splitlines(), 0)
    for folder in sorted((HERE.parent / "examples").iterdir()):
        name = "examples/" + folder.name
        paths = ["%s/%s" % (name, path.name) for path in sorted(folder.glob("*.java"))]
        tables.case("bounds of " + name, *("-< " + path for path in paths))
        if folder.name.startswith("broken_"):
            found = re.findall(r"^%s/\w+[.]java:\d+:\d+: .*$" % name, (folder / "README.md").read_text(), re.M)
            tables.call("bounds " + " ".join(paths), found + ["refused %d" % len(found)], 1)
        else:
            lines = slow_bounds.lines(paths, [(HERE.parent / path).read_text() for path in paths])
            tables.call("bounds " + " ".join(paths), lines, 0)


# Two objects in a release's memory, of 48 bytes and of one byte less; two handlers of one class, which are interrupted
# inside a private memory; and what the sequencer does by a store that no release lacks.
BOUNDED = {
    "two_boxes": (["H yes 48", "need 1944"], 1944, None),
    "one_byte_less": (["H no TooSmall C.java:5:54", "need none"], None, None),
    "two_handlers": (["W yes 24", "need 2248"], 2248, None),
    "sequencers": (None, 1944, ["30 mission Main", "38 register 1 H 7", "43 fault StoreFull sequencers.java:15", "43 halted"]),
    "nobody": (None, 600, ["30 mission Main", "36 fault StoreFull nobody.java:13", "36 halted"]),
}


def bounds_of_runs(tables):
    """What is told of programs that are run, and their runs by the store that is told, as by their own plans or with
    the trace that was worked out."""
    for name, (lines, store, trace) in BOUNDED.items():
        folder = HERE / "runs" / name
        paths = sources(folder) if folder.exists() else [HERE / "bounds" / (name + ".java")]
        names = " ".join(path.name for path in paths)
        tables.case("bounds of the run " + name)
        for path in paths:
            tables.file(path.name, path.read_text())
        if lines is not None:
            tables.call("bounds " + names, lines, 0)
        if store is not None:
            plan = (folder / "plan.toml").read_text() if folder.exists() else PLAN
            trace = trace or (folder / "trace").read_text().splitlines()
            tables.plan(re.sub("store = .*", "store = %d" % store, plan), trace, status_of(trace), sources=names)


ANOTHER_HANDLER = """@Scope("M") @DefineScope(name="PK", parent="M") class K extends AperiodicEventHandler {
  K() { super(new PriorityParameters(9), new AperiodicParameters(), new StorageParameters(0)); }
  public void handleAsyncEvent() { }
}
"""


def bounds_outside(tables):
    """Several files, words, and what goes wrong outside."""
    tables.case("bounds of several files", "-< A.java")
    for path in sources(HERE / "runs" / "two_boxes"):
        tables.file(path.name, path.read_text())
    tables.file("K.java", ANOTHER_HANDLER)
    tables.file("L.java", ANOTHER_HANDLER.replace("K", "L").replace("{ }", "{ new Object(); }"))
    tables.file("Q.java", "class Q { int a; int a; }\n")
    tables.line("-* 1048577 long")
    of_h, of_k, of_l = "H yes 48", "K yes 0", "L no TooSmall L.java:1:55"
    for words, lines in [("A.java", ["need 64"]), ("B.java C.java K.java", [of_h, of_k, "need 1944"]),
                         ("K.java B.java C.java", [of_k, of_h, "need 1944"]),
                         ("-- L.java C.java K.java B.java", [of_l, of_h, of_k, "need none"])]:
        tables.call("bounds " + words, lines, 0)
    tables.call("bounds B.java Q.java C.java", ["Q.java:1:22: C4 field twice", "refused 1"], 1)
    for words in "", " --plan A.java", " --plan A.java C.java", " --size 5 A.java", " " + "A.java " * 16 + "A.java":
        tables.call("bounds" + words, [], 2, "usage")
    tables.call("bound A.java", [], 2, "usage")
    tables.call("bounds none A.java", [], 5, "read none")
    tables.call("bounds A.java long none", [], 8, "too long long")
    tables.line("! room 7")
    tables.call("bounds A.java", [], 6)
    tables.line("! room 8")
    tables.call("bounds A.java", ["need 64"], 0)
    tables.line("! out 1")
    tables.call("bounds A.java", [], 6)
    tables.call("bounds A.java Q.java", [], 6)
    tables.line("! err 1")
    tables.call("bounds none", [], 6)
    tables.case("bounds, and a load fails", "-< A.java", "-- Q.java", "class Q { int a; }", "! load 2")
    tables.call("bounds A.java Q.java", [], 5, "read Q.java")
    tables.call("bounds A.java Q.java", ["need 64"], 0)


# ---- audits


def audits(tables):
    """The traces that were worked out by hand, but for the longest, and those of the examples pass by their plans."""
    for folder in sorted((HERE / "runs").iterdir()):
        trace = (folder / "trace").read_text()
        if len(trace) > ROOM:
            continue
        tables.case("audit " + folder.name)
        tables.file("plan.toml", (folder / "plan.toml").read_text())
        tables.file("trace", trace)
        tables.call("audit --plan plan.toml trace", ["yes"], 0)
    for plan in sorted((HERE.parent / "examples").glob("*/plan.toml")):
        folder = "examples/" + plan.parent.name
        tables.case("audit " + folder, "-< %s/plan.toml" % folder)
        tables.file("trace", (plan.parent / "trace.txt").read_text())
        tables.call("audit --plan %s/plan.toml trace" % folder, ["yes"], 0)


def changed_traces(tables):
    """A trace without a line, with one more, or with another one in its place, and the first line that is wrong."""
    def changed(name, changes):
        folder = HERE / "runs" / name
        tables.case("audit changes of " + name)
        tables.file("plan.toml", (folder / "plan.toml").read_text())
        for at, count, lines, wrong in changes:
            trace = (folder / "trace").read_text().splitlines()
            trace[at - 1:at - 1 + count] = lines
            tables.file("trace", "".join(line + "\n" for line in trace))
            tables.call("audit --plan plan.toml trace", ["no %d" % wrong if wrong else "yes"], 0)
    changed("ends_itself", [
        (9, 1, [], 12), (9, 0, ["53 drop 1 2"], 10), (9, 1, ["53 drop 1 1"], 9), (14, 1, [], 14), (13, 2, [], 13),
        (14, 1, ["66 halted"], 0), (15, 0, ["66 done"], 15), (10, 1, ["54 miss K"], 10), (12, 1, [], 12),
        (12, 1, ["56 end 1 2"], 12), (5, 1, ["50 arrive 1 2"], 5), (2, 1, ["42 register 2 H 7"], 2),
        (14, 1, ["66 stopped"], 14), (4, 1, [], 4), (11, 1, ["55 print x"], 11), (11, 1, ["55 print x 2"], 0),
        (1, 14, [], 1)])
    changed("ceiling", [
        (9, 0, ["88 run 2 1"], 9), (17, 1, [], 17), (17, 1, ["149 stopped"], 17), (17, 1, ["151 stopped"], 17),
        (18, 0, ["150 stopped"], 18), (17, 1, ["150 idle"], 17), (5, 1, ["80 arrive 3 1"], 5),
        (6, 1, ["80 run 2 1"], 6), (6, 1, ["80 idle"], 6), (9, 1, ["87 print n 5"], 9),
        (13, 1, ["112 end 1 1"], 13), (16, 1, ["114 run 1 1"], 16),
        (1, 1, ["30 mission Main\\x0d"], 1), (1, 1, ["30  mission Main"], 1), (1, 1, ["030 mission Main"], 1),
        (1, 1, ["30 mission 1"], 1), (1, 1, [""], 1), (10, 1, [], 10)])
    tables.case("audit a trace whose last line has no end")
    for text, line in ("0 stopped\n", "yes"), ("0 stopped", "no 1"), ("", "no 1"), ("\n", "no 1"):
        tables.file("plan.toml", PLAN.replace("units = 100", "units = 0"))
        tables.file("trace", text)
        tables.call("audit --plan plan.toml trace", [line], 0)


# A text with a `;` for each of its line feeds, behind what is answered of it by the plan AUDITED.
AUDITED = ("version = 1\nunits = 150\nstore = 704\n"
           'fire = [{ at = 50, handler = "H" }, { at = 53, handler = "H" }, { at = 54, handler = "H" }]\n')
LINES = """\
no 1 | ;
yes | 7 halted;
no 1 | 7 halted
no 2 | 7 halted;7 halted;
no 2 | 7 mission Main;
no 2 | 7 mission Main;6 halted;
no 1 | 07 halted;
no 1 | 150 halted;
yes | 150 stopped;
no 1 | 149 stopped;
no 1 | 7 halted ;
no 1 | 7  halted;
no 1 | 7 stop;
no 1 | 18446744073709551623 halted;
yes | 7 print  -1;7 halted;
yes | 7 print a b 2147483647;7 halted;
no 1 | 7 print a 2147483648;7 halted;
yes | 7 print a -2147483648;7 halted;
no 1 | 7 print a -0;7 halted;
no 1 | 7 print a;7 halted;
yes | 7 fault BadPort a:b c.java:1;7 halted;
no 1 | 7 fault BadPort A.java:0;7 halted;
no 1 | 7 fault BadPort :1;7 halted;
no 1 | 7 fault Oops A.java:1;7 halted;
no 1 | 7 register 2 H 5;7 halted;
no 1 | 7 register 1 H 29;7 halted;
yes | 7 register 1 H 28;7 halted;
no 1 | 7 mission 1A;7 halted;
yes | 50 miss H;50 halted;
no 1 | 51 miss H;51 halted;
no 1 | 50 miss G;50 halted;
no 1 | 7 end 1 1;7 halted;"""


def forms_of_lines(tables):
    """Ends of traces, units, and the forms of lines, each text by hand."""
    tables.case("audit forms of lines")
    tables.file("plan.toml", AUDITED)
    for row in LINES.split("\n"):
        answer, text = row.split(" | ")
        tables.file("trace", text.replace(";", "\n"))
        tables.call("audit --plan plan.toml trace", [answer], 0)


def audits_outside(tables):
    """Words, texts that are no plan, limits, and what goes wrong outside."""
    def begin(what):
        tables.case("audit " + what)
        tables.file("plan.toml", PLAN.replace("units = 100", "units = 0"))
        tables.file("trace", "0 stopped\n")
    begin("with other words")
    for words in "--plan plan.toml trace", "trace --plan plan.toml", "--plan=plan.toml -- trace":
        tables.call("audit " + words, ["yes"], 0)
    for words in "", " trace", " --plan plan.toml", " --plan plan.toml trace trace", " --plan plan.toml --size 5 trace":
        tables.call("audit" + words, [], 2, "usage")
    begin("by no plan")
    for text, told in ("units = ", "plan not toml"), ("", "plan bad key version"), (ONE_ROW, "plan bad key handler"), (
            PLAN.replace("100", "-1"), "plan bad value units"):
        tables.file("bad.toml", text)
        tables.call("audit --plan bad.toml trace", [], 4, told)
    tables.call("audit --plan trace trace", [], 4, "plan not toml")
    begin("what can't be had")
    for number in 1048576, 1048577, 67108864, 67108865:
        tables.line("-* %d blanks%d" % (number, number))
    for words, lines, status, told in [
            ("plan.toml none", [], 5, "read none"), ("none trace", [], 5, "read none"),
            ("no_plan none", [], 5, "read none"),
            ("plan.toml blanks1048577", ["no 1"], 0, None), ("plan.toml blanks67108864", ["no 1"], 0, None),
            ("plan.toml blanks67108865", [], 8, "too long blanks67108865"),
            ("none blanks67108865", [], 8, "too long blanks67108865"),
            ("none blanks67108864", [], 5, "read none"), ("blanks1048577 trace", [], 8, "too long blanks1048577"),
            ("blanks1048577 none", [], 5, "read none"), ("blanks1048576 trace", [], 4, "plan bad key version"),
            ("blanks1048576 blanks1048576", [], 4, "plan bad key version"),
            ("blanks1048577 blanks1048577", [], 8, "too long blanks1048577")]:
        tables.call("audit --plan " + words, lines, status, told)
    begin("and a load, a put or the telling fails")
    tables.line("! load 1")
    tables.line("! load 3")
    tables.call("audit --plan plan.toml trace", [], 5, "read trace")
    tables.call("audit --plan plan.toml trace", [], 5, "read plan.toml")
    tables.call("audit --plan plan.toml trace", ["yes"], 0)
    for line in "! room 3", "! out 1":
        tables.line(line)
        tables.call("audit --plan plan.toml trace", [], 6)
    tables.line("! err 1")
    tables.call("audit --plan plan.toml none", [], 6)


def made():
    tables = Tables()
    for part in (hand_made, examples, broken_examples, generated, words, numbers, fires, second_fires, second_refusals,
                 readings, texts, large, migrations, migrations_outside, outside, order, limits, responses, no_rows,
                 rows_outside, faults, faults_outside, bounds, bounds_of_runs, bounds_outside, audits, changed_traces,
                 forms_of_lines, audits_outside):
        part(tables)
    return tables


def main():
    tables = made()
    differs = False
    for name, lines in ("stdin", tables.asked), ("stdout", tables.told):
        before = table_files.read(name, "reports")
        front, behind = before.split(LAST)
        text = front.split("\n" + FIRST)[0].removesuffix("\n") + "\n"
        text += "".join(line + "\n" for line in lines) + LAST + behind
        if text != before and sys.argv[1:] == ["--check"]:
            print("make_calls.py: crates/scj_tables/%s has other cases" % name)
            differs = True
        elif text != before:
            table_files.write(name, "reports", text)
    sys.exit(1 if differs else 0)


main()
