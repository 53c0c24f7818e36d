"""Programs with plans for make_runs.py that go to the edges: of each operation's faults, of depths, sizes, priorities
and numbers of handlers, and of missions that follow one another.

A probe is a statement that faults or nearly does. It stands in a release, in a body of the sequencer, behind a number
of calls, in a private memory, or in several of these inside one another.
"""

import re

NUMBERS = ["0", "1", "2", "3", "7", "45", "-1", "-2", "-3", "-7", "-45", "31", "32", "33", "-31", "-33", "65536",
           "2147483647", "-2147483647", "-2147483648", "1000003"]
OPERATORS = ["+", "-", "*", "/", "%", "&", "|", "^", "<<", ">>", ">>>"]
COMPARISONS = ["<", ">", "<=", ">=", "==", "!="]
SIZES = ["-1", "-2147483648", "0", "1", "7", "8", "24", "64", "2147483647", "2147483640", "67108864"]
LENGTHS = ["-1", "-2147483648", "0", "1", "2", "19", "20", "22", "23", "268435454", "268435455", "536870910",
           "536870911", "2147483647"]
DEPTHS = [0, 1, 57, 58, 59, 60, 61, 61, 62, 62, 62, 63]


INNER = """@DefineScope(name="%(scope)s", parent="%(parent)s") class %(name)s implements Runnable {
 int k; %(name)s(int a) { k = a; }
 public void run() { Trace.print("in", k); %(work)s %(further)s }
}"""

HANDLER = """@Scope("M") @DefineScope(name="P%(number)d", parent="M") class H%(number)d extends %(form)sEventHandler {
 Main m; Gate g; int c;%(fields)s
 H%(number)d(Main a, Gate b%(parameters)s) { super(new PriorityParameters(%(priority)d), %(times)s, """ + \
    """new StorageParameters(%(storage)d)); m = a; g = b; %(sets)s}
 public void handleAsyncEvent() { %(body)s }%(downs)s
}"""


def bracketed(number):
    return "(%s)" % number if number[0] == "-" else number


class Edges:
    """One such program. `maker` chooses."""

    def __init__(self, maker):
        self.maker = maker
        self.pick, self.maybe, self.few = maker.pick, maker.maybe, maker.few
        self.classes, self.named = maker.classes, 0

    def fresh(self):
        self.named += 1
        return "z%d" % self.named

    # ---- probes

    def number(self):
        return self.pick(NUMBERS)

    def operand(self):
        return bracketed(self.number())

    def operation(self, divides=True):
        """An operation on numbers, with its operands in parentheses or not. The last one isn't 0 unless `divides`."""
        operator = self.pick(OPERATORS + ["/", "%", "/", "%", ">>", ">>>"])
        right = self.pick(NUMBERS if divides else NUMBERS[1:])
        if self.maybe(0.1):
            return "%s %s %s %s %s" % (self.operand(), operator, bracketed(right), self.pick("+-*&|^"), self.operand())
        if self.maybe(0.1):
            return "G.say(%s) %s G.say(%s)" % (self.number(), operator, right)
        return "%s %s %s" % (self.operand(), operator, bracketed(right))

    def harmless(self):
        """A statement for any body that doesn't fault where there is memory, and prints what it has come to."""
        label = self.pick(["a", "b", "", "x y"])
        return self.pick([
            'Trace.print("%s", %s);' % (label, self.operation(False)),
            'if (%s %s %s) Trace.print("%s", 1);' % (self.operand(), self.pick(COMPARISONS), self.operand(), label),
            'int # = %s; # %s= %s; Trace.print("%s", #);' % (
                self.number(), self.pick(OPERATORS), self.pick(NUMBERS[1:]), label),
            'int # = %s; #%s; Trace.print("%s", -# + ~#);' % (self.number(), self.pick(["++", "--"]), label),
            'boolean[] # = new boolean[2]; #[1] = !#[0]; if (#[1]) Trace.print("t", 1);',
            'Object # = new %s; Sub #s = (Sub) #; Trace.print("w", #s.w);' % self.pick(
                ["Sub(1, 2)", "Leaf()", "Deep()"]),
            'Object # = null; Sub #s = (Sub) #; Trace.print("n", 0);',
            'Cell # = new %s; Trace.print("t", #.twice()); Trace.print("g", #.get());' % self.pick(
                ["Cell(2)", "Sub(3, 4)", "Deep()", "Leaf()"]),
            'Trace.print("r", Device.read(%s));' % self.pick(["0", "1", "1", "1", "2", "255"]),
            'Trace.print("r", Device.read(1) * 3 - Device.read(1));',
            'Lock # = new %s; Trace.print("k", #.twice()); #.chain(new Lock());' % self.pick(["Lock()", "Quiet()"]),
            "new Object();", 'Late # = new Late(); Trace.print("l", #.a * 100 + #.w * 10 + #.b);',
            'if (G.odd(%d) && G.odd(%d) || G.odd(%d)) Trace.print("o", 1);' % tuple(self.few(0, 1) for _ in "123"),
            'for (int # = 0; # < 3; #++) { int #y; boolean #b; Cell #c; if (#b || #c != null) #y = 50; #y += #;'
            ' #b = true; Trace.print("y", #y); }',
            'Trace.print("o", G.eight(%s));' % ", ".join(self.pick(["G.tick()", self.number()]) for _ in range(8)),
            'int[] # = new int[6]; #[G.tick() & 3] = G.tick(); #[G.tick() & 3] = G.tick();'
            ' Trace.print("t", #[0] + #[1] * 10 + #[2] * 100 + #[3] * 1000);',
            'Trace.print("t", G.tick() - G.tick() * G.tick());',
            'Trace.print("p", %s);' % ("(1 + " * 25 + "G.n" + ")" * 25),
            "while (G.n < %d) { G.m = G.m + G.n; G.n = G.n + 2; }" % self.few(5, 7, 11),
        ]).replace("#", self.fresh())

    def plain(self):
        """A probe for any body."""
        if self.maybe(0.03):
            return "return;"
        if self.maybe(0.35):
            return self.harmless()
        return self.pick([
            'Trace.print("d", %s);' % self.operation(),
            'Cell # = null; Trace.print("v", #.v);',
            "Cell # = null; #.v = G.say(3);",
            "Cell # = null; #.put(G.say(4));",
            'Cell # = null; Trace.print("g", #.get());',
            "int[] # = null; #[G.say(%s)] = G.say(2);" % self.few(1, -1),
            'int[] # = null; Trace.print("e", #[G.say(%s)]);' % self.few(0, -1),
            'int[] # = null; Trace.print("n", #.length);',
            'int[] # = new int[2]; #[G.say(%s)] = G.say(5);' % self.number(),
            'int[] # = new int[3]; #[1] = 4; Trace.print("e", #[%s] + #.length);' % self.number(),
            'boolean[] # = new boolean[2]; #[1] = !#[0]; if (#[%s]) Trace.print("t", 1);' % self.few(0, 2),
            'Cell[] # = new Cell[2]; #[0] = new Cell(3); Trace.print("c", #[%s].v);' % self.few(0, 1, 2, -1),
            'int[] # = new int[%s]; Trace.print("n", #.length);' % self.pick(LENGTHS),
            "Cell[] # = new Cell[%s];" % self.pick(LENGTHS),
            'Trace.print("d", G.say(%s) / (G.say(1) - 1));' % self.number(),
            'Trace.print("d", G.say(%s) %% G.say(0));' % self.number(),
            'Object # = new %s; Sub #s = (Sub) #; Trace.print("w", #s.w);' % self.pick(
                ["Cell(1)", "Object()", "Lock()"]),
            'Object # = null; Sub #s = (Sub) #; Trace.print("n", 0); Trace.print("w", #s.w);',
            'Trace.print("r", Device.read(%s));' % self.pick(["256", "-1"] + NUMBERS),
            "G.m = G.deep(%d);" % self.pick(DEPTHS), "new Nest(%d);" % self.pick(DEPTHS),
            "G.m = G.nest(%d);" % self.pick(DEPTHS),
            "Lock # = new Lock(); G.m = G.hold(#, %d);" % self.pick(DEPTHS),
            'Lock # = null; Trace.print("k", #.add(G.say(1)));',
            "Cell # =\n null; #\n.put(\nG.say(4)\n);", "Cell # = null; #\n.v\n=\nG.say(2);",
            "Lock #\n= null; G.m = #\n.add(\n1);", "G.m\n= 1\n/\n(G.n - G.n)\n;",
            "int[] # = null; G.m = #\n[\n0\n];", "int[] # = new int[1]; #\n[\nG.say(1)\n]\n= 3;",
            "Object # = new Lock(); Cell #c =\n(\nCell\n)\n#;", "int[] # = new int\n[\n-1\n];",
            "G.m = Device\n.\nread(\n256\n);",
        ]).replace("#", self.fresh())

    def release_probe(self, number):
        """A probe for a release of handler `number`, in its private memory."""
        name = self.fresh()
        size = self.pick(SIZES)
        self.inner(number)
        inner = self.pick(["new I%d(%d)" % (number, self.few(0, 1, 2))] * 2 + ["r", "r", "#i"])
        enter = ("I%d #i = null; " % number if inner == "#i" else "") + \
            "ManagedMemory.enterPrivateMemory(%s, %s);" % (size, inner)
        what = self.few(*range(13))
        if what == 0:
            text = "Services.setCeiling(%s, %s);" % (self.pick(["this", "this", "#o"]), self.few(-1, 0, 1, 28, 29))
            text = ("Object #o = null; " if "#o" in text else "") + text
        elif what == 1:
            text = self.pick(["register();", "this.register();", "H%d # = null; #.register();" % number,
                              "m.requestTermination();", "m.requestTermination();",
                              "Main # = null; #.requestTermination();", "g.bad(%s);" % self.few(0, 1),
                              "@Scope(IMMORTAL) Mission # = G.last; #.requestTermination();"])
        elif what in (2, 3, 4):
            text = enter
        elif what == 5:
            self.cycle()
            text = "x.a.k = %d; x.size = %s; x.next = %s; ManagedMemory.executeInAreaOf(%s, x);" % (
                self.few(0, 1, 2, 2), self.pick(["16", "0", "0", "-1", "100000"]),
                self.pick(["16", "-1", "67108864", "2147483647"]), self.pick(["this", "x"]))
        elif what == 6:
            self.cycle()
            text = "X # = %s; Main #m = %s; ManagedMemory.executeInAreaOf(%s, #);" % (
                self.pick(["null", "x"]), self.pick(["null", "m"]), self.pick(["this", "this", "#h"]))
            if "#h" in text:
                text = "H%d #h = null; " % number + text
        elif what == 7:
            text = self.pick(["g.hit(%d);", 'Trace.print("g", g.hit(%d));', "g.low(%d);", "g.both(g);"]).replace(
                "%d", str(self.few(1, 2)))
        elif what == 8 and number > 1:
            self.maker.uses.add("o%d" % number)
            text = self.pick(["o.release();", "o.release(); o.release();", "H1 # = null; #.release();"])
        elif what == 9:
            text = "Gate # = null; #.hit(G.say(1));"
        elif what == 10:
            text = self.pick(["new Leaf();", "new Deep();", "new Late();", "new Nest(%d);" % self.few(0, 1, 2)])
        else:
            text = self.plain()
        text = text.replace("#", name)
        if self.maybe(0.9 if what == 10 else 0.4):
            self.maker.downs.setdefault(number, []).append(text)
            place = len(self.maker.downs[number])
            text = "down%d(%d);" % (place, self.pick(DEPTHS) - self.few(0, 0, 1))
        return text

    # ---- classes

    def inner(self, number):
        """A class that is entered from a release; one or two further ones may be entered from there."""
        if "I%d" % number in self.classes:
            return
        scope, deepest = "P%d" % number, self.few(0, 0, 1, 2)
        for level, letter in enumerate(["", "a", "b"][:deepest + 1]):
            name = "I%d%s" % (number, letter)
            further = "if (k > %d) ManagedMemory.enterPrivateMemory(%s, new I%d%s(k));" % (
                level, self.pick(SIZES[2:8]), number, "ab-"[level])
            self.classes[name] = INNER % {
                "name": name, "scope": "Q%d%s" % (number, letter), "parent": scope,
                "work": self.plain() if self.maybe(0.6) else "", "further": further if level < deepest else ""}
            scope = "Q%d%s" % (number, letter)

    def cycle(self):
        self.classes["X"] = """@Scope("M") class X implements Runnable { A a; int size; int next;
 public void run() { ManagedMemory.enterPrivateMemory(size, a); } }"""
        self.classes["A"] = """@Scope("M") @DefineScope(name="C", parent="M") class A implements Runnable { X x; int k;
 public void run() { k--; Trace.print("k", k);
  if (k > 0) { x.size = x.next; ManagedMemory.executeInAreaOf(this, x); } } }"""

    def handler(self, number, priority, form):
        """A handler whose releases make one probe after the other, each its own."""
        maker = self.maker
        probes = [self.release_probe(number) for _ in range(self.few(1, 1, 2, 3))]
        if self.maybe(0.3):
            probes.insert(0, 'Trace.print("h", %d);' % number)
        text = " ".join(probes) if self.maybe(0.5) else " ".join(
            ("if (c == %d) { %s }" % (at, probe)) for at, probe in enumerate(probes)) + " c = c + 1;"
        if self.maybe(0.12):
            text += " m.requestTermination();"
        downs = ""
        for place, probe in enumerate(maker.downs.get(number, []), 1):
            downs += '\n @RunsIn("P%d") void down%d(int a) { if (a > 0) down%d(a - 1); else { %s } }' % (
                number, place, place, probe)
        storage = self.few(*[400] * 6, 1000, 64, 0, 2147483647, -1)
        if form == "aperiodic":
            form_text = "new AperiodicParameters()"
        else:
            form_text = "new PeriodicParameters(new RelativeTime(0, %d), new RelativeTime(%d, %d))" % (
                self.few(0, 0, 1000, 7000, 40000, 999000), self.few(0, 0, 0, 1, 4294967, 2147483647),
                self.few(0, 90000, 200000, 400000))
            if "RelativeTime(0, 0))" in form_text and self.maybe(0.9):
                form_text = form_text.replace("RelativeTime(0, 0))", "RelativeTime(0, 300000))")
        other, cycles = "o%d" % number in maker.uses, re.search(r"\bx\b", text + downs) is not None
        entered = re.search(r", r\)", text + downs) is not None
        self.classes["H%d" % number] = HANDLER % {
            "number": number, "form": form.capitalize(), "priority": priority, "times": form_text, "storage": storage,
            "fields": " H1 o;" * other + " X x;" * cycles + " I%d r;" % number * entered,
            "parameters": ", H1 p" * other, "body": text, "downs": downs,
            "sets": "o = p; " * other + "x = new X(); x.a = new A(); x.a.x = x; " * cycles
            + "r = new I%d(%d); " % (number, self.few(0, 1, 2)) * entered}
        return other

    def gate(self):
        self.classes["Gate"] = """@Scope("M") class Gate {
 int n;
 @RunsIn(CALLER) synchronized int hit(int a) { n = n + a; %sreturn n; }
 @RunsIn(CALLER) synchronized void low(int a) { n = a; }
 @RunsIn(CALLER) synchronized int both(Gate o) { return o.hit(1) + hit(2); }
 @RunsIn(CALLER) synchronized int bad(int a) { return 7 / a; }
}""" % self.pick(["", 'Trace.print("n", n); '])

    def sequencer_probe(self):
        """A probe for `initialize`."""
        bad = self.maybe(0.6)
        numbers = [5, 0, 0, 0, 500000, 24] if not bad else [
            self.few(5, 5, 0, 29), self.few(0, 0, -1), self.few(0, 0, 500, 1000000, -1000), self.few(0, 0, -1),
            self.few(500000, 500000, 0, 999, 1000000), self.few(24, 24, -1)]
        self.classes["K"] = """@Scope("M") @DefineScope(name="PK", parent="M") class K extends PeriodicEventHandler {
 K(int p, int a, int b, int d, int e, int s) {
  super(new PriorityParameters(G.say(p)), new PeriodicParameters(new RelativeTime(a, b), new RelativeTime(d, e)),
   new StorageParameters(s)); }
 public void handleAsyncEvent() { Trace.print("K", 1); }
}"""
        return self.pick([
            "new K(%s).register();" % ", ".join(str(number) for number in numbers),
            "K k = new K(%s); k.register(); k.register();" % ", ".join(str(number) for number in numbers),
            "new K(%s);" % ", ".join(str(number) for number in numbers),
            "K k = null; k.register();", "Services.setCeiling(%s, %s);" % (
                self.pick(["g", "this", "null", "new Cell(1)", "new int[1]"][:4]), self.few(-1, 0, 1, 5, 28, 29)),
            "requestTermination();" if self.maybe(0.3) else ";", "G.last = this;", self.plain()])

    # ---- whole programs

    def application(self, missions, immortal, again, start, kept):
        """The safelet and the sequencer."""
        self.classes["App"] = """class App implements Safelet {
 public MissionSequencer getSequencer() { return new Seq(); }
 public long immortalMemorySize() { return %d; }
 public void initializeApplication() { %s }
}""" % (immortal, start)
        give = "return new Main();" if not kept else "if (kept == null) kept = new Main(); return kept;"
        self.classes["Seq"] = """class Seq extends MissionSequencer {
 int n;%s
 Seq() { super(new PriorityParameters(5), new StorageParameters(0)); }
 public Mission getNextMission() {
  if (n >= %d) return null; n = n + 1; %s
  %s
 }
}""" % (" Main kept;" if kept else "", missions, again, give)

    def mission(self, size, lines, clean):
        self.classes["Main"] = """@DefineScope(name="M", parent="IMMORTAL") class Main extends Mission {
 public long missionMemorySize() { return %d; }
 public void initialize() {
  %s
 }%s
}""" % (size, "\n  ".join(line for line in lines if line not in ("", ";")), clean)

    def program(self):
        """One of the kinds of programs below."""
        kind = self.pick([self.probes] * 14 + [self.tower] * 2 + [self.followers] * 3 + [self.crowd, self.flood]
                         + [self.sums] * 3)
        kind()

    def probes(self):
        maker = self.maker
        self.gate()
        count = self.few(1, 2, 2, 3, 3, 4)
        made, lines = [], ["Gate g = new Gate();"]
        if self.maybe(0.8):
            lines.append("Services.setCeiling(g, %d);" % self.few(28, 20, 20, 15, 9, 7, 1))
        for number in range(1, count + 1):
            form = "aperiodic" if number == 1 or self.maybe(0.5) else "periodic"
            made.append((number, form))
            other = self.handler(number, self.few(1, 5, 7, 9, 9, 12, 20, 28), form)
            maker.handlers.append("H%d" % number)
            if form == "periodic":
                maker.periodic.append("H%d" % number)
            name = "h%d" % number
            lines.append("H%d %s = new H%d(this, g%s); %s.register();" % (
                number, name, number, ", h1" if other else "", name))
            if self.maybe(0.12):
                lines.append(self.sequencer_probe())
        clean = ""
        if self.maybe(0.25):
            clean = "\n public void cleanUp() { %s }" % self.pick(
                [self.plain(), "requestTermination();", "Services.setCeiling(this, %d);" % self.few(0, 3, 29),
                 'Trace.print("clean", 1);'])
        maker.sizes[1] = self.few(2000, 2000, 2000, 300)
        maker.immortal = self.few(1000, 1000, 1000, 200, 2147483647 if self.maybe(0.1) else 64)
        self.mission(maker.sizes[1], lines, clean)
        self.application(self.few(1, 1, 2), maker.immortal, self.plain() if self.maybe(0.1) else "",
                         self.plain() if self.maybe(0.12) else "", self.maybe(0.3))

    def sums(self):
        """Many harmless statements, most of them sums, before a mission with a handler."""
        maker = self.maker
        begin = "\n  ".join(self.harmless() if self.maybe(0.5) else 'Trace.print("%s", %s);' % (
            self.pick(["+", "-", ""]), self.operation(False)) for _ in range(self.few(8, 10, 12)))
        self.classes["H1"] = """@Scope("M") @DefineScope(name="P1", parent="M") class H1 extends PeriodicEventHandler {
 H1() { super(new PriorityParameters(5), new PeriodicParameters(new RelativeTime(0, 0), new RelativeTime(0, 100000)),
  new StorageParameters(500)); }
 public void handleAsyncEvent() { %s %s }
}""" % (self.harmless(), self.plain())
        maker.handlers.append("H1")
        maker.periodic.append("H1")
        maker.immortal, maker.sizes[1] = 2000, 400
        self.mission(400, ["new H1().register();"], "")
        self.application(1, 2000, begin, "", False)

    def tower(self):
        """Up to 28 handlers, each of which releases the next, which is more urgent."""
        maker, count = self.maker, self.few(3, 5, 9, 27, 28, 28)
        step = self.few(1, 1, 1, 0) if count > 9 else self.few(1, 2, 3, 0)
        first = 1 if count > 26 else self.few(1, 2)
        lines = []
        self.classes["T"] = """@Scope("M") @DefineScope(name="P", parent="M") class T extends AperiodicEventHandler {
 T next; int k;
 T(T n, int p, int s) {
  super(new PriorityParameters(p), new AperiodicParameters(), new StorageParameters(s)); next = n; k = p; }
 public void handleAsyncEvent() { %s if (next != null) next.release(); %s }
}""" % (self.pick(["", "new Cell(k);", 'Trace.print("up", k);']),
            self.pick(["", 'Trace.print("k", k);', "new Cell(k);"]))
        storage = self.few(0, 8, 24, 48)
        lines.append("T t = null; for (int i = %d; i > 0; i--) { t = new T(t, %d + %d * i, %d); t.register(); }" % (
            count, first - step if step else first, step, storage))
        self.classes["Z"] = """@Scope("M") @DefineScope(name="PZ", parent="M") class Z extends PeriodicEventHandler {
 T t;
 Z(T a) { super(new PriorityParameters(%d), new PeriodicParameters(new RelativeTime(0, %d), new RelativeTime(%d, 0)),
  new StorageParameters(0)); t = a; }
 public void handleAsyncEvent() { t.release(); }
}""" % (self.few(1, 28, 14), self.few(0, 5000), self.few(2, 9))
        lines.append("new Z(t).register();")
        maker.handlers += ["T"]
        maker.immortal, maker.sizes[1], maker.is_long = 200, 3000, True
        self.mission(3000, lines, "")
        self.application(1, 200, "", "", False)
        maker.areas = 200 + 3000 + storage * self.few(1, count - 1, count, 100)

    def followers(self):
        """Missions that end soon, one after the other."""
        maker = self.maker
        priority = self.few(5, 9)
        when = self.few(0, 0, 1, 2)
        asked = self.pick(["m.requestTermination();", "m.requestTermination(); m.requestTermination();",
                           "m.requestTermination(); release();", "release(); m.requestTermination(); G.m = 1 / 0;"])
        self.classes["H1"] = """@Scope("M") @DefineScope(name="P1", parent="M") class H1 extends AperiodicEventHandler {
 Main m; int c;
 H1(Main a) { super(new PriorityParameters(%d), new AperiodicParameters(), new StorageParameters(%d)); m = a; }
 public void handleAsyncEvent() { c = c + 1; %s if (c > %d) { %s } %s }
}""" % (priority, self.few(0, 48), self.plain() if self.maybe(0.3) else "", when, asked,
            'Trace.print("end", c);' if self.maybe(0.5) else "")
        self.classes["H2"] = """@Scope("M") @DefineScope(name="P2", parent="M") class H2 extends PeriodicEventHandler {
 H1 h;
 H2(H1 a) { super(new PriorityParameters(%d), new PeriodicParameters(new RelativeTime(0, %d), new RelativeTime(%d, %d)),
  new StorageParameters(0)); h = a; }
 public void handleAsyncEvent() { %s h.release(); %s }
}""" % (self.few(4, 5, 9, 12), self.few(0, 0, 4000), self.few(0, 1), self.few(20000, 60000),
            "h.release();" if self.maybe(0.3) else "", 'Trace.print("2", 2);' if self.maybe(0.4) else "")
        order = self.few(1, 2)
        lines = ["H1 h = new H1(this);"] + ["h.register();", "new H2(h).register();"][::1 if order == 1 else -1]
        if self.maybe(0.1):
            lines.append("requestTermination();")
        if self.maybe(0.1):
            lines.append("h.release();")
        clean = self.pick(["", "", '\n public void cleanUp() { Trace.print("c", 1); }',
                           "\n public void cleanUp() { requestTermination(); G.last = this; }"])
        again = self.pick(["", "", "if (kept != null) kept.requestTermination();",
                           "if (kept != null) Services.setCeiling(kept, %d);" % self.few(3, 0)])
        kept = again != "" or self.maybe(0.4)
        maker.handlers += ["H1", "H2"]
        maker.periodic.append("H2")
        maker.immortal, maker.sizes[1] = 300, self.few(400, 400, 180)
        self.mission(maker.sizes[1], lines, clean)
        self.application(self.few(2, 3, 4), 300, again, "", kept)

    def crowd(self):
        """As many handlers as there may be, or one more, and one that is registered again."""
        maker = self.maker
        self.classes["H1"] = """@Scope("M") @DefineScope(name="P1", parent="M") class H1 extends AperiodicEventHandler {
 H1 o; H1(H1 a) { super(new PriorityParameters(7), new AperiodicParameters(), new StorageParameters(0)); o = a; }
 public void handleAsyncEvent() { %s }
}""" % self.pick(["", "o.register();", "if (o != null) o.release();", "this.register();"])
        count = self.few(62, 63, 63, 64)
        lines = ["H1 h = new H1(null); %s h.register();" % self.pick(["", "H1 late = new H1(h);"]),
                 "for (int i = 0; i < %d; i++) { %snew H1(h).register(); }" % (
                     count, self.pick(["", "h.register(); "])),
                 self.pick(["h.register();", "late.register();", "", "h.register(); new H1(h).register();"])]
        if "late." in " ".join(lines) and "H1 late" not in lines[0]:
            lines[2] = "h.register();"
        maker.handlers.append("H1")
        maker.immortal, maker.sizes[1], maker.is_long = 200, 5000, True
        self.mission(5000, lines, "")
        self.application(1, 200, "", "", False)

    def flood(self):
        """About as many releases as may wait."""
        maker = self.maker
        self.classes["H1"] = """@Scope("M") @DefineScope(name="P1", parent="M") class H1 extends AperiodicEventHandler {
 int c; H1() { super(new PriorityParameters(5), new AperiodicParameters(), new StorageParameters(0)); }
 public void handleAsyncEvent() { c = c + 1; %s }
}""" % self.pick(["", "if (c < 3) release();", "if (c < 2) { release(); release(); }"])
        self.classes["H2"] = """@Scope("M") @DefineScope(name="P2", parent="M") class H2 extends PeriodicEventHandler {
 Main m; H1 h;
 H2(Main a, H1 b) { super(new PriorityParameters(9), new PeriodicParameters(new RelativeTime(0, %d),
  new RelativeTime(%d, 0)), new StorageParameters(0)); m = a; h = b; }
 public void handleAsyncEvent() { for (int i = 0; i < %d; i++) h.release(); %s }
}""" % (self.few(0, 3000), self.few(1, 2), self.few(62, 63, 64, 64, 65, 65, 66),
            "m.requestTermination();" if self.maybe(0.3) else "")
        maker.handlers += ["H1", "H2"]
        maker.periodic.append("H2")
        maker.immortal, maker.sizes[1], maker.is_long = 200, 400, True
        self.mission(400, ["H1 h = new H1(); h.register(); new H2(this, h).register();"], "")
        self.application(1, 200, "", "", False)
