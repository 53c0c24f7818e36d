#!/usr/bin/env python3
"""Makes many small accepted programs with plans, and their traces by the slow machine beside this file.

    make_runs.py                    writes the table `runs` of crates/scj_tables
    make_runs.py STDIN STDOUT       writes them elsewhere
    make_runs.py --sample FOLDER    writes the first 60 cases as folders that check_runs.py reads
    make_runs.py --statistics       counts what all the runs have together: operations, faults, kinds of lines, phases
    make_runs.py --count N ..       does one of these with the first N cases alone

STDIN is a table of cases. It begins with the short forms of phrases.py, a line `$X TEXT` each. A case begins with a
line `== NAME`; then, for each file, come a line `-- FILE` and the lines of the file, each of which ends with a line
feed. The sources come first, in the order in which they are given to the machine, and the plan, as `-- plan.toml`,
last. No line of a file begins with `== ` or `-- `. STDOUT has for each case the line `== NAME`, the lines of the
trace, and `status 0`, or `status 3` where the run halts.

The programs of small_runs.py stand first. The others are made from a seed, so each call makes the same ones. Such a
program is put together from parts that keep the rules on scopes by the way they are made, here and in edge_runs.py and
mission_runs.py; slow_rules.py is asked of each one, and what it refuses is left out. The last 1,000 are those of
mission_runs.py, whose missions are begun again and again and whose plans are of version 2. A trace has at most 150
lines: the plan's units are cut where it would have more.
"""
import collections
import io
import itertools
import multiprocessing
import pathlib
import random
import re
import sys

import edge_runs
import mission_runs
import phrases
import slow_machine
import small_runs
import table_files

FIRST_CASES, MISSION_CASES = 3000, 1000
CASES = FIRST_CASES + MISSION_CASES
SAMPLE = 60
LINES = 150
SEED = 20260801

EXTREMES = ["2147483647", "-2147483648", "-1", "0", "65536", "31", "32", "33", "1000003"]
NUMBER_OPERATORS = ["+", "-", "*", "&", "|", "^", "<<", ">>", ">>>", "+", "-", "*"]
COMPARISONS = ["<", ">", "<=", ">=", "==", "!="]

# Classes that are taken into a program where it names them, each member where the program names that. Before `:` stands
# what names it. None of the classes says where its objects lie.
COMMON = {
    "G": ["class G {", """
G.n:static int n = 5;
G.m:static int m;
G.on:static boolean on = true;
G.o:static Object o;
G.c:static Cell c = null;
G.rows:static int[] rows;
G.last:static Mission last;
G.low:static int low = -2147483648;
add(:static int add(int a, int b) { return a + b; }
deep(:static int deep(int a) { if (a == 0) return 0; return deep(a - 1) + 1; }
nest(:static int nest(int a) { if (a == 0) { Cell s = new Sub(1, 2); return s.get(); } return nest(a - 1); }
hold(:static int hold(Lock l, int a) { if (a == 0) return l.add(1); return hold(l, a - 1); }
say(:static int say(int a) { Trace.print("say", a); return a; }
tick(:static int tick() { G.n = G.n + 1; return G.n; }
eight(:static int eight(int a, int b, int c, int d, int e, int f, int g, int h) { return a-b*3+c*5-d*7+e*9-f*8+g*4-h; }
odd(:static boolean odd(int a) { Trace.print("odd", a); return (a & 1) == 1; }
make(:static Cell make(int a) { return new Cell(a); }
shout(:static void shout(int a) { if (a > 9) return; Trace.print("shout", a); }"""],
    "Cell": ["class Cell {", """
class:int v;
class:Cell(int a) { v = a; }
.next:Cell next;
.b:boolean b = false;
.k:int k = 7;
.t:boolean t = true;
get():int get() { return v; }
twice():int twice() { return get() + this.get(); }
put(:void put(int a) { v = a; this.b = a > 0; }
link(:@RunsIn(THIS) void link(Cell o) { this.next = o; }
me():@Scope(THIS) Cell me() { return this; }"""],
    "Sub": ["class Sub extends Cell {", """
class:int w = -3;
class:Sub(int a, int c) { super(a + 1); w = w + c; }
.last:Object last = null;
get():int get() { return v + w; }"""],
    "Deep": ["class Deep extends Sub {", """
class:Deep() { super(4, 5); }
twice():int twice() { return w; }"""],
    "Leaf": ["class Leaf extends Deep {", """
class:int x = 9;"""],
    "Lock": ["class Lock {", """
class:int n;
add(:synchronized int add(int a) { n = n + a; return n; }
chain(:synchronized void chain(Lock o) { n = o.add(n); }
twice():int twice() { return add(1) + add(2); }"""],
    "Quiet": ["class Quiet extends Lock {", """
class:int add(int a) { n = n - a; return n; }"""],
    "Base": ["class Base {", """
class:int a;
class:Base() { a = seed(); }
class:int seed() { return 1; }"""],
    "Late": ["class Late extends Base {", """
class:int w = 9;
class:int b;
class:Late() { b = w; }
class:int seed() { return w + 5; }"""],
    "Nest": ["class Nest {", """
class:Nest in;
class:Nest(int a) { if (a > 0) in = new Nest(a - 1); }"""],
}


def common_members():
    """Each member of COMMON: its class, what names it, and its text."""
    for name, (head, text) in COMMON.items():
        for line in text.strip().split("\n"):
            pattern, member = re.match(r"([\w.]+\(?\)?):(.*)", line).groups()
            yield name, pattern, member


def with_common(classes):
    """The texts of the classes, with those parts of COMMON that they name and that those name in turn."""
    taken, text = [], "\n".join(classes)
    for _ in range(6):
        for member in common_members():
            name, pattern, line = member
            if member not in taken and re.search(r"\b%s\b" % name, text):
                if pattern == "class" or pattern in text:
                    taken.append(member)
                    text += "\n" + line + ("\n" + COMMON[name][0])
    out = list(classes)
    for name, (head, _) in COMMON.items():
        if re.search(r"\b%s\b" % name, text):
            members = [member[2] for member in common_members() if member in taken and member[0] == name]
            out.append("\n".join([head] + members + ["}"]))
    return out


class Body:
    """The statements of one body. It knows what can be read there, and what lies in the current area."""

    def __init__(self, chance, parts, safe=False, ints=(), cells=(), gates=(), calls=(), more=()):
        self.chance = chance
        self.ints, self.cells, self.gates = list(ints), list(cells), list(gates)
        self.calls, self.more = list(calls), list(more)
        self.own, self.arrays, self.flags, self.objects, self.targets = [], [], [], [], []
        self.safe, self.parts = safe, parts
        self.named = 0

    def pick(self, things):
        return things[self.chance.randrange(len(things))]

    def maybe(self, share):
        return self.chance.random() < share

    def fresh(self, letter):
        self.named += 1
        return "%s%d" % (letter, self.named)

    def unsafe(self, things):
        """What may fault, unless the body is a safe one."""
        return [] if self.safe else things

    # ---- expressions

    def small(self):
        return str(self.chance.choice([0, 1, 1, 2, 2, 3, 4, 5, 7, 9, 12, 20, 90]))

    def number(self, depth=2):
        if depth == 0 or self.maybe(0.25):
            choices = [self.small()] * 3 + self.ints * 2 + ["G.n", "G.m"][: self.chance.randrange(3)]
            if self.maybe(0.12):
                choices = EXTREMES
            return self.pick(choices)
        less = depth - 1
        kind = self.chance.randrange(20)
        if kind == 6:
            return "%s %s %s" % (self.operand(less), self.pick(["<<", ">>", ">>>"]),
                                 self.pick(["1", "33", "(-1)", "31", "64", "(-30)"]))
        if kind < 6:
            return "%s %s %s" % (self.operand(less), self.pick(NUMBER_OPERATORS), self.operand(less))
        if kind == 7:
            divisor = self.pick(["2", "3", "-1", "7", "-4"])
            if not self.safe and self.maybe(0.2):
                divisor = "(%s)" % self.number(less)
            left = "(%s - 45)" % self.operand(less) if self.maybe(0.5) else self.operand(less)
            return "%s %s %s" % (left, self.pick(["/", "%"]), divisor)
        if kind == 8:
            return "%s%s" % (self.pick(["-", "~"]), self.operand(0).replace("-2147483648", "9").replace("-", "~", 1))
        if kind == 9:
            return "G.add(%s, %s)" % (self.number(less), self.number(less))
        if kind == 10:
            return "Device.read(%s)" % self.pick(["0", "1", "1", "2", "255"] + self.unsafe([self.number(0)]))
        if kind in (11, 12) and self.cells + self.own:
            cell = self.pick(self.cells + self.own)
            return cell + self.pick([".v", ".get()", ".twice()", ".k", ".v", ".me().v"])
        if kind in (13, 14) and self.arrays:
            array = self.pick(self.arrays)
            return array + self.pick([".length", "[%s]" % self.pick(["0"] + self.unsafe(["1", self.number(0)])), "[0]"])
        if kind in (15, 16) and self.gates:
            return self.pick(self.gates).replace("?", self.number(less))
        if kind == 17 and self.own:
            return self.pick(["((Cell) %s).v"] + self.unsafe(["((Sub) %s).w"] * ("Sub" in self.parts))
                             ) % self.pick(self.own)
        return "(%s)" % self.number(less)

    def operand(self, depth):
        text = self.number(depth)
        return "(%s)" % text if re.search(r" [-+*/%&|^<>]", text) and self.maybe(0.7) else text

    def truth(self, depth=2):
        if depth == 0 or self.maybe(0.2):
            choices = ["%s %s %s" % (self.operand(0), self.pick(COMPARISONS), self.operand(0))] * 3
            return self.pick(choices + ["true", "false", "G.on"] + self.flags * 2)
        kind, less = self.chance.randrange(10), depth - 1
        if kind == 9 or kind < 3:
            return "%s %s %s" % (self.side(less), self.pick(["&&", "||"]), self.side(less))
        if kind == 3:
            return "!(%s)" % self.truth(less)
        if kind == 4:
            return "G.odd(%s)" % self.number(less)
        if kind == 5 and self.own:
            return "%s %s %s" % (self.pick(self.own), self.pick(["==", "!="]), self.pick(self.own + ["null"]))
        if kind == 6 and self.cells + self.own:
            return self.pick(self.cells + self.own) + self.pick([".b", ".t"])
        return "%s %s %s" % (self.operand(less), self.pick(COMPARISONS), self.operand(less))

    def side(self, depth):
        text = self.truth(depth)
        return "(%s)" % text if "&&" in text or "||" in text else text

    # ---- statements

    def block(self, count, depth):
        marks = [(known, len(known)) for known in (self.ints, self.own, self.arrays, self.flags, self.objects,
                                                   self.targets, self.cells)]
        text = self.statements(count, depth)
        for known, mark in marks:
            del known[mark:]
        return text

    def statements(self, count, depth=2):
        return " ".join(self.statement(depth) for _ in range(count))

    def label(self):
        return self.pick(["a", "b", "level", "u v", "q:", ""])

    def new_cell(self):
        subclasses = ["new Sub(%s, 2)", "new Leaf()", "new Deep()", "G.make(%s)"] if "Sub" in self.parts else []
        return self.pick(["new Cell(%s)", "new Cell(%s)"] + subclasses).replace("%s", self.number(1))

    def statement(self, depth=2):
        kind = self.chance.randrange(34)
        if kind < 4 or self.named > 24:
            return 'Trace.print("%s", %s);' % (self.label(), self.number())
        if kind == 4:
            return "G.on = %s;" % self.truth() if self.maybe(0.3) else "if (%s) { %s }" % (
                self.truth(), self.block(1, 0))
        if kind < 8:
            value = self.number()
            name = self.fresh("i")
            self.ints.append(name)
            self.targets.append(name)
            return "int %s = %s;" % (name, value) if self.maybe(0.7) else "int %s;" % name
        if kind < 11 and self.targets:
            name = self.pick(self.targets)
            return self.pick(["%s = %s;", "%s += %s;", "%s++;", "%s--;", "%s -= %s;", "%s *= %s;", "%s <<= %s;",
                              "%s >>>= %s;", "%s ^= %s;"]).replace("%s", name, 1).replace("%s", self.number(1))
        if kind < 14:
            value = self.new_cell()
            name = self.fresh("c")
            self.own.append(name)
            return "Cell %s = %s;" % (name, value)
        if kind == 14 and self.own:
            one, other = self.pick(self.own), self.pick(self.own + ["null"])
            if other != "null" and self.maybe(0.3):
                return "%s.next = %s.next;" % (one, other)
            return self.pick(["%s.next = %s;", "%s.link(%s);"]) % (one, other)
        if kind == 15 and self.own + self.cells:
            return self.pick(self.own + self.cells) + self.pick([".v = %s;", ".put(%s);", ".k = %s;", ".get();"]
                                                                ).replace("%s", self.number(1))
        if kind in (16, 17):
            length = self.pick(["1", "2", "3"] + self.unsafe(["0", self.number(0)]))
            name = self.fresh("r")
            self.arrays.append(name)
            return "int[] %s = new int[%s];" % (name, length)
        if kind == 18 and self.maybe(0.4):
            array, index = self.fresh("r"), self.fresh("k")
            return "int[] %s = new int[%d]; for (int %s = 0; %s < %s.length; %s++) %s[%s] = %s;" % (
                array, self.chance.randrange(4), index, index, array, index, array, index, self.number(0))
        if kind == 18 and self.arrays:
            index = self.pick(["0"] + self.unsafe(["0", "1", self.number(0)]))
            return "%s[%s] = %s;" % (self.pick(self.arrays), index, self.number(1))
        if kind == 19:
            value = self.truth()
            name = self.fresh("f")
            self.flags.append(name)
            return "boolean %s = %s;" % (name, value) if self.maybe(0.7) else "boolean %s;" % name
        if kind == 20:
            return self.pick(["G.m = %s;" % self.number(), "G.on = %s;" % self.truth(), "G.n += 1;".replace(
                "+= 1", "= G.n + 1"), "G.shout(%s);" % self.number(1)])
        if kind in (21, 22) and depth:
            text = "if (%s) { %s }" % (self.truth(), self.block(1 + self.maybe(0.4), depth - 1))
            return text + (" else { %s }" % self.block(1, depth - 1) if self.maybe(0.5) else "")
        if kind in (23, 24) and depth:
            name = self.fresh("k")
            self.ints.append(name)
            inner = self.block(1, depth - 1)
            self.ints.remove(name)
            turns = self.chance.randrange(4)
            if self.maybe(0.5):
                return "for (int %s = 0; %s < %d; %s++) { %s }" % (name, name, turns, name, inner)
            text = "while (%s > 0) { %s %s--; }" % (name, inner, name)
            return "int %s = %d; %s" % (name, turns, text)
        if kind in (25, 26, 27) and self.calls:
            return self.pick(self.calls).replace("?", self.number(1))
        if kind in (28, 29) and self.more:
            return self.pick(self.more).replace("?", self.number(0))
        if kind == 30 and "Sub" in self.parts and self.maybe(0.7):
            name = self.fresh("o")
            made = self.pick(["new Sub(1, 2)", "new Leaf()", "null"])
            return "Object %s = %s; Sub s%s = (Sub) %s; Trace.print(\"s\", %s);" % (
                name, made, name, name, "s%s.w" % name if made != "null" else "3")
        if kind == 30:
            name = self.fresh("o")
            value = self.pick(["new Object()", "null", "new Cell(1)"] + self.own)
            return "Object %s = %s; if (%s == null) G.n = 1; else Trace.print(\"o\", 1);" % (name, value, name)
        if kind == 31 and "Lock" in self.parts:
            name = self.fresh("l")
            lock = self.pick(["new Lock()", "new Quiet()"])
            call = self.pick(['Trace.print("l", %s.add(2));', "%s.add(3);", 'Trace.print("l", %s.twice());',
                              "%s.chain(new Lock());"]) % name
            return "Lock %s = %s; %s" % (name, lock, call)
        if kind in (31, 32):
            return self.pick([";", "{ }", "new Cell(3);", "new Object();", "G.make(2);", "G.add(1, 2);",
                              "boolean[] %s = new boolean[2];" % self.fresh("y"), "Device.read(3);"])
        return 'Trace.print("n", %s);' % self.number(1) if self.safe else self.danger()

    def danger(self):
        """Something that faults, or nearly does."""
        z = self.fresh("z")
        depth = self.chance.choice([55, 60, 61, 62, 63, 64])
        if self.maybe(0.08):
            wrong = self.pick(["new Cell(1)", "new Object()", "new Lock()"])
            return "Object %s = %s; Sub s%s = (Sub) %s; G.m = s%s.w;" % (z, wrong, z, z, z)
        return self.pick([
            "Cell z = null; G.m = z.v;",
            "Cell z = null; z.v = 3;",
            "Cell z = null; z.put(1);",
            "int[] z = null; G.m = z.length;",
            "int[] z = null; Trace.print(\"z\", z.length);",
            "int[] z = null; G.m = z[0];",
            "int[] z = null; z[1] = 2;",
            "int[] z = new int[2]; z[%s] = 1;" % self.number(0),
            "int[] z = new int[2]; G.m = z[%s];" % self.pick(["2", "-1", "1", "2147483647"]),
            "boolean[] z = new boolean[1]; G.on = z[%s];" % self.pick(["0", "1"]),
            "int[] z = new int[%s];" % self.pick(["-1", "-2147483648", "0", "1"]),
            "Cell[] z = new Cell[2]; z[1] = new Cell(5); G.m = z[%s].v;" % self.pick(["0", "1"]),
            "int z = %s; G.m = 7 %s (z - z);" % (self.number(0), self.pick(["/", "%"])),
            "Object z = %s; Sub w = (Sub) z; G.m = w.w;".replace("w ", z + "w ").replace("w.w", z + "w.w")
            % self.pick(["new Cell(1)", "new Sub(1, 2)", "null", "new Object()", "new Leaf()"]),
            "G.m = G.deep(%d);" % depth,
            "G.m = G.nest(%d);" % depth,
            "Lock z = new Lock(); G.m = G.hold(z, %d);" % depth,
            "new Nest(%d);" % self.chance.choice([2, 63, 64]),
            "G.m = Device.read(%s);" % self.pick(["256", "-1", "255", "0"]),
            "Services.setCeiling(%s, %s);" % (self.pick(["null"] + ["new Lock()", "new Object()"] * 3),
                                              self.pick(["5", "0", "29", "28", "1"])),
            "Lock z = new Lock(); Services.setCeiling(z, 3); z.add(1);",
            "@Scope(IMMORTAL) Mission z = G.last; z.requestTermination();",
        ]).replace("z", z)


def pieces(text):
    """The characters of a text; what stands for a phrase is one."""
    return re.findall(r"\$.|[^$]", text, re.S)


class Maker:
    """One program with its plan."""

    def __init__(self, number):
        self.chance = random.Random(SEED * 100003 + number)
        self.classes = {}
        self.handlers, self.periodic = [], []
        self.rough, self.sizes, self.is_long = self.maybe(0.12), {}, False
        self.is_deep = self.maybe(0.06)
        self.parts = [part for part in ("Sub", "Lock") if self.maybe(0.25)]
        self.uses, self.downs, self.areas = set(), {}, None

    def pick(self, things):
        return things[self.chance.randrange(len(things))]

    def maybe(self, share):
        return self.chance.random() < share

    def body(self, **known):
        return Body(self.chance, self.parts, **known)

    def few(self, *counts):
        return self.chance.choice(counts)

    def bytes(self, ample, tight):
        """A size that mostly suffices."""
        return self.pick(tight) if self.maybe(0.12) else ample

    # ---- the application

    def program(self):
        missions = self.few(1, 1, 1, 1, 1, 1, 1, 2)
        for number in range(1, missions + 1):
            self.mission(number)
        self.immortal = self.bytes(2000, [64, 63, 15, 88, 120, 160, 200])
        begin = self.body(safe=not self.rough)
        start = begin.statements(self.few(0, 0, 0, 1, 2), 1)
        if self.rough and self.maybe(0.5):
            start += " " + begin.danger()
        self.classes["App"] = """class App implements Safelet {
 public MissionSequencer getSequencer() { return %s; }
 public long immortalMemorySize() { return %d; }
 public void initializeApplication() { %s }
}""" % ("null" if self.maybe(0.015) else "new Seq()", self.immortal, start)
        priority, storage = self.few(*[(5, 0)] * 25, (0, 0), (29, 0), (3, -1), (28, 7))
        turns = self.few(1, 1, 1, 2, 2, 2, 3)
        between = self.body(safe=not self.rough, ints=["n"]).statements(self.few(0, 0, 0, 0, 0, 1), 1)
        fields, again, give = "int n;", "", "return new M1();"
        if missions > 1:
            give = "if (n == %d) return new M2(); return new M1();" % self.few(1, 2)
        elif turns > 1 and self.maybe(0.5):
            fields += " M1 kept;"
            again = self.pick(["", " if (n == 1) kept.requestTermination();"])
            give = "if (kept == null) kept = new M1(); return kept;"
        self.classes["Seq"] = """class Seq extends MissionSequencer {
 %s
 Seq() { super(new PriorityParameters(%d), new StorageParameters(%d)); }
 public Mission getNextMission() {
  if (n >= %d) return null;%s n++; %s
  %s
 }
}""" % (fields, priority, storage, turns, again, between, give)

    # ---- missions

    def mission(self, n):
        scope = "S%d" % n
        rough = self.rough and self.maybe(0.5)
        names = ["H%d%s" % (n, letter) for letter in "abc"[:self.few(0, *[1] * 7, *[2] * 7, 3)]]
        gate = self.maybe(0.65)
        runnable, cycle = self.maybe(0.15), self.maybe(0.12)
        if gate:
            self.gate(n)
        if runnable:
            inner = self.body(safe=self.maybe(0.7), ints=["q"]).statements(self.few(1, 1, 2), 1)
            self.classes["J%d" % n] = """@DefineScope(name="T%d", parent="%s") class J%d implements Runnable {
 int q; J%d(int a) { q = a; }
 public void run() { %s }
}""" % (n, scope, n, n, inner)
        if cycle:
            self.cycle(n)
        made, aperiodic = {}, []
        for name in names:
            other = self.pick(aperiodic) if aperiodic and self.maybe(0.7) else None
            made[name] = self.handler(n, name, gate, other, runnable, cycle)
            if made[name]["form"] == "aperiodic":
                aperiodic.append(name)
        uses_gate = any("g" in made[name]["given"] for name in names)
        entered = "ManagedMemory.enterPrivateMemory(%s, new J%d(?));"
        start = self.body(
            safe=not rough, gates=["g.hit(?)"] if uses_gate else [],
            calls=["g.set(?);"] if uses_gate else [],
            more=[entered % (self.pick(["64", "100"] if not rough else ["8", "-1", "0"]), n)] if runnable else [])
        text = []
        if uses_gate:
            self.cut_gate(n, made)
            text.append("Gate%d g = new Gate%d();" % (n, n))
            if self.maybe(0.8):
                text.append("Services.setCeiling(g, %d);" % self.few(*[20, 20, 15, 9, 9, 28, 12, 25, 5] * 8, 1, 29, 0))
        text.append(start.statements(self.few(0, 0, 0, 0, 1, 1, 2), 1))
        if rough and self.maybe(0.3):
            text.append(start.danger())
        local = {name: name.lower() for name in names}
        for name in names:
            new = self.construction(n, made[name], "g", local)
            if name not in " ".join(made[m]["other"] or "" for m in names) and self.maybe(0.6):
                text.append("new %s.register();" % new)
                local[name] = None
                continue
            text.append("%s %s = new %s;" % (name, local[name], new))
            if self.maybe(0.93):
                text.append("%s.register();" % local[name])
            if self.maybe(0.1):
                text.append("%s.register();" % local[name])
            if made[name]["form"] == "aperiodic" and self.maybe(0.1):
                text.append("%s.release();" % local[name])
        size = self.bytes(3000, [900, 600, 400, 250, 100, 0])
        if made and self.maybe(0.03):
            name = self.pick(names)
            text.append("for (int i = 0; i < %d; i++) new %s.register();" % (
                self.few(62, 63, 64, 65), self.construction(n, made[name], "g", local, True)))
            size, self.is_long = 9000, True
        self.sizes[n] = size
        if rough and self.maybe(0.4):
            text.append(self.pick(["G.last = this;", "M%d z = null; z.requestTermination();" % n]
                                  + ["%s z = null; z.register();" % name for name in names] * 2))
        if self.maybe(0.05):
            text.append(self.pick(["requestTermination();", "this.requestTermination(); requestTermination();"]))
        if self.maybe(0.03):
            text.append("G.last = this;")
        clean = ""
        if self.maybe(0.3):
            cleaning = self.body(safe=not rough, ints=["done"], more=[entered % ("48", n)] if runnable else [])
            inner = cleaning.statements(self.few(0, 1, 1, 2), 1)
            if self.maybe(0.25):
                inner += " requestTermination();"
            if names and self.maybe(0.2):
                asked = self.pick(["register", "release"] if made[names[0]]["form"] == "aperiodic" else ["register"])
                inner += " new %s.%s();" % (self.construction(n, made[names[0]], "null", {}, True), asked)
            clean = "\n public void cleanUp() { done++; %s }" % inner
        self.classes["M%d" % n] = """@DefineScope(name="%s", parent="IMMORTAL") class M%d extends Mission {%s
 public long missionMemorySize() { return %d; }
 public void initialize() {
  %s
 }%s
}""" % (scope, n, "\n int done;" if clean else "", size, "\n  ".join(line for line in text if line), clean)

    def gate(self, n):
        inner = self.pick(["", 'Trace.print("gate", n); ', ""])
        self.classes["Gate%d" % n] = """@Scope("S%d") class Gate%d {
 int n; int[] seen;
 Gate%d() { seen = new int[2]; }
 @RunsIn(CALLER) synchronized int hit(int a) { n = n + a; %sreturn n; }
 @RunsIn(CALLER) synchronized void set(int a) { n = a; seen[%s] = a; }
 @RunsIn(CALLER) synchronized int both(Gate%d o) { return o.hit(1) + hit(2); }
 @RunsIn(CALLER) int peek() { return n; }
}""" % (n, n, n, inner, "a" if self.rough else self.pick(["0", "a & 1"]), n)

    def cut_gate(self, n, made):
        """Leaves out what no class names of the gate; what the mission may name stays."""
        text = " ".join(body for name, body in self.classes.items() if name != "Gate%d" % n)
        lines = self.classes["Gate%d" % n].split("\n")
        for word in ("both", "peek"):
            if word + "(" not in text:
                lines = [line for line in lines if word + "(" not in line]
        self.classes["Gate%d" % n] = "\n".join(lines)

    def cycle(self, n):
        self.classes["X%d" % n] = """@Scope("S%d") class X%d implements Runnable { A%d a;
 public void run() { ManagedMemory.enterPrivateMemory(%s, a); } }""" % (n, n, n, self.pick(["16", "24", "0"]))
        self.classes["A%d" % n] = """@Scope("S%d") @DefineScope(name="C%d", parent="S%d")
class A%d implements Runnable { X%d x; int k;
 public void run() { k--; Trace.print("k", k); if (k > 0) ManagedMemory.executeInAreaOf(this, x); } }""" % (
            n, n, n, n, n)

    def construction(self, n, made, gate, local, right=False):
        """`CLASS(ARGUMENTS)` for a handler."""
        words = []
        for what in made["given"]:
            if what == "m":
                words.append("this")
            elif what == "g":
                words.append(gate)
            elif what == "o":
                words.append(local.get(made["other"]) or "null")
            else:
                words.append(str(self.form_number(what, right)))
        return "%s(%s)" % (made["name"], ", ".join(words))

    def form_number(self, what, right=False):
        """A number of a handler's form: p is the priority, s the storage, a and b the start, d and e the period."""
        if what == "p":
            return self.few(*[5, 7, 9, 9, 12, 15, 18, 20, 25, 28, 1] * 18, *([] if right else [0, 29]))
        if what == "s":
            return self.few(*[0, 24, 48, 100, 200, 400, 500, 400, 600] * 15, *([] if right else [-1]))
        if what == "a":
            return self.few(*[0, 0, 0, 5000, 12000, 30000, 77000] * 24, *([] if right else [-1000, 999]))
        if what == "d":
            return self.few(*[0] * 200, *([] if right else [-1, 4294968, 4294967]))
        return self.few(*[40000, 60000, 90000, 150000, 300000, 999000] * 22, *([] if right else [0, 500, 1000000]))

    # ---- handlers

    def handler(self, n, name, gate, other, runnable, cycle):
        form = self.pick(["periodic", "aperiodic"])
        scope, short = "S%d" % n, name[1:]
        private = "P" + short
        calls, more, extra = [], [], []
        gates = ["g.hit(?)", "g.peek()", "g.hit(?)"] if gate else []
        if gate:
            calls += ["g.set(?);", "G.m = g.both(g);", "g.hit(?);"]
        if other:
            calls += ["other.release();"] * 3
            if self.maybe(0.1):
                calls += ["for (int i = 0; i < %d; i++) other.release();" % self.few(63, 64, 65, 66)] * 4
                self.is_long = True
        if form == "aperiodic" and self.maybe(0.2):
            more += ["if (c < 4) release();", "if (c < 2) this.release();"]
        if self.maybe(0.05):
            more += ["register();", "Services.setCeiling(this, ?);"]
        if self.is_deep or self.maybe(0.28):
            extra.append(self.inner(n, name, gate))
            calls += ["ManagedMemory.enterPrivateMemory(%s, new I%s(?%s));" % (
                self.pick(["24", "64", "64", "100", "100", "100", "0", "-1", "c * 8"]), short,
                ", g" if "Gate" in extra[-1] else "")] * 4
        if self.maybe(0.5 if self.is_deep else 0.18):
            work = self.pick(["h.kept = new Cell(q);", "if (h.kept == null) h.kept = new Sub(q, 1);", "h.c = q;"]
                             + ["new J%d(q);" % n, "ManagedMemory.enterPrivateMemory(32, new J%d(q));" % n] * 2
                             * runnable)
            extra.append("""@Scope("%s") class E%s implements Runnable { %s h; int q; E%s(%s t, int v) { h = t; q = v; }
 @RunsIn("%s") public void run() { %s %s } }""" % (private, short, name, short, name, scope, self.body(
                ints=["q"], safe=True).statements(self.few(0, 1), 1), work))
            self.classes["E" + short] = extra[-1]
            calls += ["ManagedMemory.executeInAreaOf(this, new E%s(this, ?));" % short] * 3
        if self.maybe(0.07):
            self.classes["Imm"] = """class Imm implements Runnable { int q; Imm(int a) { q = a; }
 @RunsIn(IMMORTAL) public void run() {
  G.c = new Cell(q); G.rows = new int[2]; G.rows[1] = G.c.v; G.m = G.rows[1]; } }"""
            calls += ["ManagedMemory.executeInAreaOf(m, new Imm(?));"] * 3
            if self.maybe(0.4):
                more += ["M%d none = null; ManagedMemory.executeInAreaOf(none, new Imm(?));" % n] * 2
        if cycle:
            calls += ["x.a.k = %s; ManagedMemory.executeInAreaOf(this, x);" % self.pick(["1", "1", "2"])] * 3
        if self.maybe(0.1):
            more += [self.pick(
                ["I%s none = null; ManagedMemory.enterPrivateMemory(8, none);" % short]
                * (3 if "I" + short in self.classes else 0)
                + ["X%d none = null; ManagedMemory.executeInAreaOf(this, none);" % n] * cycle * 3
                + ["%s none = null; none.release();" % name] * (form == "aperiodic") * 6
                + ["%s none = null; none.register();" % name, "M%d none = null; none.requestTermination();" % n])] * 3
        down = ""
        if calls and self.maybe(0.9 if self.is_deep else 0.06):
            edge = self.pick([(self.pick(calls).replace("?", "a"), "", "")] + [
                ("ManagedMemory.enterPrivateMemory(%s, r);" % self.pick(["64", "64", "-1"]), "I%s r" % short,
                 "new I%s(3%s)" % (short, ", g" if "Gate" in "".join(extra) else ""))
            ] * (2 if "I" + short in self.classes else 0) + [
                ("ManagedMemory.executeInAreaOf(this, r);", "E%s r" % short, "new E%s(this, 2)" % short)
            ] * (2 if "E" + short in self.classes else 0))
            down = '\n @RunsIn("%s") void down(int a%s) { if (a > 0) down(a - 1%s); else { %s } }' % (
                private, ", " + edge[1] if edge[1] else "", ", r" if edge[1] else "", edge[0])
            extra.append(down)
            deep = "down(%d%s);" % (self.few(3, 60, 61, 61, 62, 62, 62, 63), ", " + edge[2] if edge[2] else "")
            calls = [deep] * 9 + calls
            self.is_long = True
        kept = self.maybe(0.2)
        made = self.body(ints=["c", "c"] if self.maybe(0.5) else [], cells=["kept"] if kept else [], gates=gates,
                         calls=calls, more=more)
        text = made.statements(self.few(0, 1, 1, 1, 2, 2, 3))
        if self.maybe(0.2):
            text += " " + made.danger()
        if calls and self.maybe(0.7):
            text += " " + self.pick(calls).replace("?", made.number(1))
        if more and self.maybe(0.5):
            text += " " + self.pick(more).replace("?", made.number(1)).replace("none", "nil")
        if self.maybe(0.4):
            again = self.pick(["", "", " m.requestTermination();"] + [" other.release();"] * (3 if other else 0))
            text += " if (c > %d) { m.requestTermination();%s }" % (self.few(0, 0, 1, 1, 2, 3), again)
        if self.maybe(0.25):
            text += " " + made.statements(1)
        all_text = " ".join([text] + extra).replace("h.c", " c ").replace("h.kept", " kept ")

        def uses(word):
            return re.search(r"(^|[^.\w])%s\b" % word, re.sub(r'"[^"]*"', "", all_text)) is not None
        fields, sets, given, parameters = [], [], [], []
        for what in "ps" + ("ade" if form == "periodic" else ""):
            if self.maybe(0.25):
                given.append(what)
                parameters.append("int " + what)
        words = {what: what if what in given else str(self.form_number(what)) for what in "psade"}
        if uses("c"):
            fields.append("int c;")
            text = "c++; " + text
        if kept or uses("kept"):
            fields.append("Cell kept;")
        if kept:
            sets.append("kept = new %s;" % self.pick(["Cell(4)", "Cell(4)", "Sub(5, 6)", "Leaf()"]))
        if cycle and uses("x"):
            fields.append("X%d x;" % n)
            sets.append("x = new X%d(); x.a = new A%d(); x.a.x = x;" % (n, n))
        if uses("m"):
            fields.append("M%d m;" % n)
            parameters.append("M%d w" % n)
            sets.append("m = w;")
            given.append("m")
        if gate and uses("g"):
            fields.append("Gate%d g;" % n)
            parameters.append("Gate%d y" % n)
            sets.append("g = y;")
            given.append("g")
        if other and uses("other"):
            fields.append("%s other;" % other)
            parameters.append("%s o" % other)
            sets.append("this.other = o;")
            given.append("o")
        if form == "periodic":
            middle = "new PeriodicParameters(new RelativeTime(0, %(a)s), new RelativeTime(%(d)s, %(e)s))" % words
        else:
            middle = "new AperiodicParameters()"
        self.classes[name] = """@Scope("%s") @DefineScope(name="%s", parent="%s") class %s extends %sEventHandler {
 %s
 %s(%s) { super(new PriorityParameters(%s), %s, new StorageParameters(%s)); %s}
 public void handleAsyncEvent() { %s }%s
}""" % (scope, private, scope, name, form.capitalize(), " ".join(fields), name, ", ".join(parameters), words["p"],
            middle, words["s"], "".join(line + " " for line in sets), text, down)
        self.handlers.append(name)
        if form == "periodic":
            self.periodic.append(name)
        if self.maybe(0.2) and not parameters:
            self.classes[name + "x"] = "class %sx extends %s { public void handleAsyncEvent() { %s } }" % (
                name, name, self.body().statements(2))
            if self.maybe(0.7):
                self.handlers.append(name + "x")
                return {"name": name + "x", "form": form, "given": given, "other": other}
        return {"name": name, "form": form, "given": given, "other": other if "o" in given else None}

    def inner(self, n, name, gate):
        """A class that is entered from a handler's releases, and often one that is entered from there."""
        short, private = name[1:], "P" + name[1:]
        gate = gate and self.maybe(0.4)
        calls, fields, parameters, sets = [], ["int q;"], ["int a"], ["q = a;"]
        if gate:
            fields.append("Gate%d g;" % n)
            parameters.append("Gate%d x" % n)
            sets.append("g = x;")
            calls += ["g.set(?);"]
        if self.maybe(0.4):
            deepest = self.body(ints=["q"]).statements(self.few(1, 1, 2), 1)
            self.classes["R" + short] = """@DefineScope(name="R%s", parent="Q%s") class R%s implements Runnable {
 int q; R%s(int a) { q = a; }
 public void run() { %s }
}""" % (short, short, short, short, deepest)
            calls += ["ManagedMemory.enterPrivateMemory(%s, new R%s(?));" % (self.pick(["8", "48", "96"]), short)] * 3
        made = self.body(ints=["q"], gates=["g.hit(?)"] if gate else [], calls=calls)
        text = made.statements(self.few(0, 1, 1, 2), 1)
        if calls and self.maybe(0.6):
            text += " " + self.pick(calls).replace("?", "q")
        scope = '@Scope("%s") ' % private if gate or self.maybe(0.4) else ""
        self.classes["I" + short] = """%s@DefineScope(name="Q%s", parent="%s") class I%s implements Runnable {
 %s I%s(%s) { %s }
 public void run() { %s }
}""" % (scope, short, private, short, " ".join(fields), short, ", ".join(parameters), " ".join(sets), text)
        return self.classes["I" + short]

    # ---- sources and the plan

    def named_classes(self):
        """The classes that the safelet names, by itself or through others, and now and then one that nobody names."""
        named, grown = {"App"}, True
        while grown:
            text = " ".join(self.classes[name] for name in named)
            new = {name for name in self.classes if name not in named and re.search(r"\b%s\b" % name, text)}
            named, grown = named | new, bool(new)
        self.handlers = [name for name in self.handlers if name in named]
        return [text for name, text in self.classes.items() if name in named or self.maybe(0.03)]

    def with_line_feeds(self, text, share):
        """The text with some line feeds between lexemes, so that a fault's line tells the lexeme at which it stands."""
        out, quotes = "", 0
        for piece in pieces(phrases.shortened(text) if share < 0.1 else text):
            if quotes % 2 == 0 and piece == " " and self.maybe(share):
                piece = "\n"
            elif quotes % 2 == 0 and piece in ".[()," and self.maybe(share / 2):
                piece = "\n" + piece
            quotes += phrases.whole(piece).count('"')
            out += piece
        return re.sub(r"\n(==|--) ", r" \1 ", phrases.whole(out))

    def sources(self):
        texts = with_common(self.named_classes())
        share = self.few(0, 0, 0, 0.05, 0.05, 0.05, 0.05, 0.3)
        if share:
            texts = [self.with_line_feeds(text, share) for text in texts]
        self.chance.shuffle(texts)
        count = min(self.chance.choice([1, 1, 2, 3]), len(texts))
        cuts = sorted(self.chance.sample(range(1, len(texts)), count - 1)) if count > 1 else []
        parts = [texts[a:b] for a, b in zip([0] + cuts, cuts + [len(texts)])]
        return [("ABC"[i] + ".java", "\n".join(part) + "\n") for i, part in enumerate(parts)]

    def unit(self, units):
        """A unit for a fire."""
        kind = self.chance.randrange(20)
        if kind == 0:
            return self.chance.randrange(0, 45)
        if kind == 1:
            return self.pick([units - 1, units, max(units - 2, 0)])
        return self.chance.randrange(40, max(units, 41)) if kind < 9 else self.chance.randrange(60, 220)

    def plan(self):
        units = 3000 if self.is_long else self.few(200, 300, 400, 600, 900, 1500)
        if self.maybe(0.03):
            units = self.chance.randrange(0, 120)
        areas = self.areas or self.immortal + (self.sizes[1] + 7) // 8 * 8
        store = self.few(100000, 100000, 100000, areas + self.few(0, 48, 100, 200, 400, 450, 500, 600, 700, 900))
        if self.areas and self.maybe(0.5):
            store = areas
        if self.maybe(0.02):
            store = self.chance.randrange(0, areas)
        store = min(store, 67108864)
        fires, readings = [], []
        names = [h for h in self.handlers if h not in self.periodic]
        for _ in range(self.few(0, 1, 2, 3, 4, 6) if names else self.few(0, 0, 1, 2)):
            name = self.pick(names * 6 + self.handlers + ["Nobody", "Cell"])
            fires += [(self.unit(units), name)] * self.few(*[1] * 30, 2, 3)
        if names and self.maybe(0.02):
            fires += [(self.chance.randrange(150, 260), self.pick(names))] * self.few(64, 65, 66, 68)
        ports = [0, 1, 1, 1, 2, 255]
        for _ in range(self.few(0, 0, 0, 1, 2, 3, 6, 9)):
            readings.append((self.pick(ports), self.few(0, self.chance.randrange(0, 400), 120, 121, 30),
                             self.pick([0, 1, 50, 95, -7, 2147483647, -2147483648])))
        lines = ["version = 1", "units = %d" % units, "store = %d" % store]
        if self.maybe(0.2):
            lines += ['[[fire]]\nat = %d\nhandler = "%s"' % fire for fire in fires]
            lines += ["[[reading]]\nport = %d\nat = %d\nvalue = %d" % reading for reading in readings]
        else:
            if fires:
                lines.append("fire = [%s]" % ", ".join('{at = %d, handler = "%s"}' % fire for fire in fires))
            if readings:
                lines.append("reading = [%s]" % ", ".join("{port = %d, at = %d, value = %d}" % row for row in readings))
        return "\n".join(lines) + "\n"


def made(number):
    """The case of the number: its sources, its plan, its trace and counts; None where the rules refuse the sources."""
    maker = Maker(number)
    if number % 5 < 2:
        edge_runs.Edges(maker).program()
    else:
        maker.program()
    files, plan = maker.sources(), maker.plan()
    try:
        machine = run(files, plan)
        if maker.maybe(0.35):
            files, plan = fitted(maker, machine, files, plan)
            machine = run(files, plan)
    except slow_machine.Refused:
        return None
    return cut(files, plan, machine)


def made_of_missions(number):
    """The same of a program whose missions follow one another, and a plan of version 2."""
    maker = Maker(1000000 + number)
    missions = mission_runs.Missions(maker)
    missions.program()
    files = maker.sources()
    try:
        plan = missions.plan(files, run)
        machine = run(files, plan)
    except slow_machine.Refused:
        return None
    return cut(files, plan, machine)


def cut(files, plan, machine):
    """The case, whose plan has fewer units where the trace is too long."""
    if len(machine.lines) > LINES:
        units = int(machine.lines[LINES - 1].split(" ")[0])
        plan = re.sub(r"units = \d+", "units = %d" % units, plan)
        machine = run(files, plan)
    return files, plan, machine.lines, machine.counts


def fitted(maker, machine, files, plan):
    """The program and the plan, where an area or the store has as many bytes as the run used, or one less."""
    less = maker.few(0, 1)
    if maker.maybe(0.3):
        return files, re.sub(r"store = \d+", "store = %d" % max(machine.most_reserved - less, 0), plan)
    scope = maker.pick(sorted({area.scope for area in machine.areas}) + ["IMMORTAL", "S1"])
    used = max([area.used for area in machine.areas if area.scope == scope] + [1]) - less
    if scope == "IMMORTAL":
        pattern = r"(immortalMemorySize\(\)\s*\{\s*return\s+)\d+"
    elif scope[0] in "SM":
        pattern = r"(name\s*=\s*\"%s\"[^@]*missionMemorySize\(\)\s*\{\s*return\s+)\d+" % scope
    else:
        pattern = r"(name\s*=\s*\"%s\"[^@]*StorageParameters\()\d+" % scope
    return [(name, re.sub(pattern, r"\g<1>%d" % max(used, 0), text)) for name, text in files], plan


def run(files, plan):
    names, texts = [name for name, _ in files], [text for _, text in files]
    machine = slow_machine.Machine(names, texts, slow_machine.tomllib.loads(plan))
    machine.run()
    return machine


def small_cases(counts):
    """The cases of small_runs.py."""
    for name, files, plan in small_runs.runs():
        machine = run(files, plan)
        counts.update(machine.counts)
        assert len(machine.lines) <= LINES, name
        yield name, (files, plan, machine.lines)


def generated_cases(name, make, counts):
    """The cases that are made from the seed, without an end."""
    made_so_far = 0
    with multiprocessing.Pool() as pool:
        for case in pool.imap(make, range(2 * CASES), chunksize=8):
            if case is None:
                counts["refused programs, left out"] += 1
                continue
            counts.update(case[3])
            made_so_far += 1
            yield "%s%04d" % (name, made_so_far), case[:3]


def cases(count, counts):
    """So many cases."""
    first = itertools.chain(small_cases(counts), generated_cases("run", made, counts))
    missions = generated_cases("missions", made_of_missions, counts)
    return itertools.islice(itertools.chain(itertools.islice(first, FIRST_CASES), missions), count)


def write(given, expected, count, counts):
    """The two tables."""
    for code, phrase in zip(phrases.CODES, phrases.PHRASES):
        given.write("$%s %s\n" % (code, phrase.replace("\n", "\\x0a")))
    for name, (files, plan, lines) in cases(count, counts):
        given.write("== %s\n" % name)
        for file, text in files + [("plan.toml", plan)]:
            given.write("-- %s\n%s" % (file, phrases.shortened(text)))
        status = 3 if lines[-1].endswith(" halted") else 0
        expected.write("== %s\n%s\nstatus %d\n" % (name, "\n".join(lines), status))


def main():
    words = sys.argv[1:]
    count = CASES
    if words[:1] == ["--count"]:
        count, words = int(words[1]), words[2:]
    counts = collections.Counter()
    if not words:
        given, expected = io.StringIO(), io.StringIO()
        write(given, expected, count, counts)
        table_files.write("stdin", "runs", given.getvalue())
        table_files.write("stdout", "runs", expected.getvalue())
    elif words[0] == "--statistics":
        size = 0
        for _, (files, plan, lines) in cases(count, counts):
            size += sum(len(text) for _, text in files) + len(plan) + sum(len(line) + 1 for line in lines)
        for name, number in sorted(counts.items()):
            print("%8d %s" % (number, name))
        print("%8d bytes of sources, plans and traces" % size)
    elif words[0] == "--sample":
        for name, (files, plan, lines) in cases(min(count, SAMPLE), counts):
            folder = pathlib.Path(words[1]) / name
            folder.mkdir(parents=True, exist_ok=True)
            for file, text in files + [("plan.toml", plan), ("trace", "\n".join(lines) + "\n")]:
                (folder / file).write_text(text)
    else:
        with open(words[0], "w") as given, open(words[1], "w") as expected:
            write(given, expected, count, counts)


if __name__ == "__main__":
    main()
