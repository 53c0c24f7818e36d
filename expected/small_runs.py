"""Small programs with plans for make_runs.py, each written for what it shows: a fault that is tested before another
one, a place, an order, a number that doesn't fit. Most are one handler whose releases each make one probe."""

FRONT = """class App implements Safelet {
 public MissionSequencer getSequencer() { return new Seq(); }
 public long immortalMemorySize() { return 4000; }
 public void initializeApplication() { %(begin)s }
}
class Seq extends MissionSequencer {
 int n;
 Seq() { super(new PriorityParameters(5), new StorageParameters(0)); }
 public Mission getNextMission() {
  if (n >= %(missions)d) return null; n = n + 1; return new Main();
 }
}
"""

MISSION = """@DefineScope(name="M", parent="IMMORTAL") class Main extends Mission {%(fields)s
 public long missionMemorySize() { return 4000; }
 public void initialize() {
  %(initialize)s
 }
}
"""

HANDLER = """@Scope("M") @DefineScope(name="%(scope)s", parent="M") class %(name)s extends AperiodicEventHandler {
 Main m; int c;%(fields)s
 %(name)s(Main a) { super(new PriorityParameters(%(priority)d), new AperiodicParameters(), new StorageParameters(400));
  m = a; %(sets)s}
 public void handleAsyncEvent() { c = c + 1; %(body)s }%(methods)s
}
"""

CELL = "class Cell { int v; Cell(int a) { v = a; } int get() { return v; } }\n"
INNER = """@DefineScope(name="Q", parent="P") class I implements Runnable {
 public void run() { Trace.print("in", 1); }
}
"""
# A runnable of P that runs in the mission's memory.
OUTER = """@Scope("P") class E implements Runnable {
 @RunsIn("M") public void run() { Trace.print("out", 1); }
}
"""
# `x` enters `a`, whose `run` lets `x` enter it again with the next size, at a depth.
CYCLE = """@Scope("M") class X implements Runnable { A a; int size; int next;
 public void run() { ManagedMemory.enterPrivateMemory(size, a); } }
@Scope("M") @DefineScope(name="C", parent="M") class A implements Runnable { X x; int k;
 public void run() { Trace.print("k", k); x.size = x.next; down(k); }
 @RunsIn("C") void down(int a) { if (a > 0) down(a - 1); else ManagedMemory.executeInAreaOf(this, x); } }
"""
SETS_CYCLE = "x = new X(); x.a = new A(); x.a.x = x; "
LOCK = '@Scope("M") class Gate { int n; @RunsIn(CALLER) synchronized int bad(int a) { return 7 / a; } }\n'
TIMED = """@Scope("M") @DefineScope(name="PT", parent="M") class T extends PeriodicEventHandler {
 T(int p, int a, int d, int e, int s) { super(new PriorityParameters(p), new PeriodicParameters(new RelativeTime(0, a),
   new RelativeTime(d, e)), new StorageParameters(s)); }
 public void handleAsyncEvent() { }
}
"""


def handler(body, name="H", scope="P", priority=9, fields="", sets="", methods=""):
    return HANDLER % dict(body=body, name=name, scope=scope, priority=priority, fields=fields, sets=sets,
                          methods="".join("\n " + line for line in methods.split("\n") if line))


def each(*bodies):
    """One body for each release, the first one first."""
    return " ".join("if (c == %d) { %s }" % (number, body) for number, body in enumerate(bodies, 1))


def below(body, extra="", given=""):
    """A method that calls itself `a` times and then does this, in the memory of a release. `given` hands on `extra`."""
    return '@RunsIn("P") void down(int a%s) { if (a > 0) down(a - 1%s); else { %s } }' % (extra, given, body)


def files(*parts, fields="", begin="", missions=1, initialize="H h = new H(this); h.register();"):
    front = FRONT % dict(begin=begin, missions=missions)
    return [("A.java", front), ("B.java", MISSION % dict(fields=fields, initialize=initialize) + "".join(parts))]


def plan(*fires, units=900, store=100000, readings=()):
    """A plan; one of version 2 where its fires say from where they count."""
    second = bool(fires and len(fires[0]) == 3)
    text = "version = %d\nunits = %d\nstore = %d\n" % (1 + second, units, store)
    if fires:
        row = '{at = %d, handler = "%s"' + (', from = "%s"}' if second else "}")
        text += "fire = [%s]\n" % ", ".join(row % fire for fire in fires)
    if readings:
        text += "reading = [%s]\n" % ", ".join("{port = %d, at = %d, value = %d}" % row for row in readings)
    return text


def released(*units):
    """Fires of H, so far apart that one release ends before the next."""
    return [(unit, "H") for unit in units]


def one_shots(*starts, priority=9, period="0, 0"):
    """Statements that register a one-shot handler for each start, in units."""
    return " ".join("new T(%d, %d, %s, 0).register();" % (priority, 1000 * start, period) for start in starts)


def begun(*statements):
    """What a program whose sequencer does all does first."""
    return files(handler(""), begin=" ".join(statements))


DEEP = released(150, 600)

RUNS = {
    # of two faults at once the one that is tested first
    "null before a negative size": (
        files(INNER, handler("I r = null; ManagedMemory.enterPrivateMemory(-1, r);")), plan(*released(150))),
    "a negative size before a scope that is open": (
        files(CYCLE, handler("x.size = 16; x.next = -1; ManagedMemory.executeInAreaOf(this, x);", fields=" X x;",
                             sets=SETS_CYCLE)), plan(*released(150))),
    "a scope that is open before the depth": (
        files(CYCLE, handler("x.a.k = 59; x.size = 16; x.next = 16; ManagedMemory.executeInAreaOf(this, x);",
                             fields=" X x;", sets=SETS_CYCLE)), plan(*released(150), units=1500)),
    "the depth before the store": (
        files(INNER, handler("down(62, new I());", methods=below("ManagedMemory.enterPrivateMemory(67108864, r);",
                                                                ", I r", ", r"))), plan(*released(150), units=1500)),
    "a negative size before the depth": (
        files(INNER, handler("down(62, new I());", methods=below("ManagedMemory.enterPrivateMemory(-8, r);",
                                                                ", I r", ", r"))), plan(*released(150), units=1500)),
    "null before the depth at a call": (
        files(CELL, handler("down(62);", methods=below("Cell z = null; z.get();"))), plan(*DEEP, units=1500)),
    "null before the depth in another area": (
        files(OUTER, handler("down(62, c, new E());", methods=below(
            "E z = null; H g = null; if (b == 1) ManagedMemory.executeInAreaOf(this, z); "
            "ManagedMemory.executeInAreaOf(g, r);", ", int b, E r", ", b, r"))),
        plan(*released(150, 950), units=1800)),
    "the depth at a construction": (
        files(CELL, handler(each("down(61);", "down(62);"), methods=below('new Cell(a); Trace.print("new", 1);'))),
        plan(*DEEP, units=1500)),
    "the depth in another area": (
        files(OUTER, handler("down(62, new E());", methods=below("ManagedMemory.executeInAreaOf(this, r);", ", E r",
                                                                ", r"))), plan(*released(150), units=900)),
    "null before a handler too many": (
        files(handler(""), initialize="for (int i = 0; i < 64; i++) new H(this).register();\n"
              "  H n = null; n.register();"),
        plan(units=4000)),
    "a release registers": (
        files(handler(each("H n = null; n.register();", "spare.register();", "this.register();"), fields=" H spare;"),
              initialize="H s = new H(this); "
              "for (int i = 0; i < 64; i++) { H h = new H(this); h.spare = s; h.register(); h.register(); }"),
        plan(*released(1900, 1950, 2000), units=2100)),
    "null before a negative index": (
        files(handler(each('int[] z = null; Trace.print("z", z[-1]);', "int[] z = null; z[-1] = 3;"))),
        plan(*released(150, 200))),
    "null before an index past the end": (
        files(handler(each('int[] z = null; Trace.print("z", z[0]);', "int[] z = null; z[0] = 3;"))),
        plan(*released(150, 200))),
    "the depth before the ceiling": (
        files(LOCK, handler(each("down(61);", "down(62);"), fields=" Gate g;",
                            sets="g = new Gate(); Services.setCeiling(g, 8); ", methods=below("g.bad(1);"))),
        plan(*released(150, 800), units=1500)),
    "faults of a ceiling": (
        files(handler(each("Object o = null; Services.setCeiling(o, 29);", "Services.setCeiling(this, 0);",
                           "Services.setCeiling(this, 28);"))), plan(*released(150, 200, 250))),
    "a priority before a period": (
        files(handler(""), TIMED, initialize="new T(29, 0, 0, 500, -1).register();"), plan(units=200)),
    "a period before a storage": (
        files(handler(""), TIMED, initialize="new T(28, 0, 0, 500, -1).register();"), plan(units=200)),
    "a start of a part of a microsecond before a storage": (
        files(handler(""), TIMED, initialize="new T(28, 999, 1, 0, -1).register();"), plan(units=200)),
    "a one-shot handler before a storage": (
        files(handler(""), TIMED, initialize="new T(28, 0, 0, 0, -1).register();"), plan(units=200)),
    "the depth at a super part": (
        files(CELL, "class Sub extends Cell { Sub(int a) { super(a); } }\n",
              handler(each("down(60);", "down(61);"), methods=below('new Sub(a); Trace.print("new", 1);'))),
        plan(*DEEP, units=1500)),
    # places
    "where an unwritten super part stands": (
        files("class Base { int v; Base() { v = 1; } }\nclass Sub\nextends Base {\n int w;\n Sub()\n {\n w = v; } }\n",
              handler("down(61);", methods=below("new Sub();"))), plan(*released(150))),
    "where an element stands": (
        files(handler(each('int[] z = new int[1]; Trace.print("z",\nz\n[\n5\n]\n);',
                           "int[] z = new int[1];\nz\n[\n5\n]\n=\n3\n;"))),
        plan(*released(150, 200))),
    "where a field stands": (
        files(CELL, handler(each('Cell z = null; Trace.print("z",\nz\n.\nv\n);',
                                 'int[] z = null; Trace.print("z",\nz\n.\nlength\n);',
                                 "Cell z = null;\nz\n.\nv\n=\n3\n;"))), plan(*released(150, 200, 250))),
    "where a call stands": (
        files(CELL, handler(each('Cell z = null; Trace.print("z",\nz\n.\nget\n(\n)\n);',
                                 'Trace.print("z",\n1\n/\n(\nc\n-\n2\n)\n);', "int[] z =\nnew\nint\n[\n-1\n]\n;"))),
        plan(*released(150, 200, 250))),
    "where a construction stands": (
        files("class Pair { int a; Pair(int b, int c) { a = b + c; } }\n",
              handler("down(62);", methods=below("Pair p\n=\nnew\nPair\n(\n1\n,\n2\n)\n;"))), plan(*released(150))),
    # orders, and what comes when
    "drops in the order of arrival": (
        files(handler("m.requestTermination();", priority=20),
              handler("", "K", "PK"), handler("", "L", "PL"),
              initialize="new H(this).register(); new K(this).register(); new L(this).register();"),
        plan((150, "H"), (150, "L"), (150, "K"), (150, "L"), (150, "K"))),
    "the first release of the next mission": (
        files(handler("m.requestTermination();"), missions=2), plan((150, "H"), (195, "H"))),
    "an object that is made in the caller's area": (
        files('@Scope("M") class Gate { @RunsIn(CALLER) int big(int a) { int[] z = new int[a]; return z.length; } }\n',
              handler(each('Trace.print("g", g.big(48));', 'Trace.print("g", g.big(49));'), fields=" Gate g;",
                      sets="g = new Gate(); ")), plan(*released(150, 200))),
    "objects in one area and in several": (
        files(CELL, handler(each(
            "Cell a = new Cell(1); Cell b = new Cell(2); tell(1, ManagedMemory.allocInSame(a, b)); "
            "tell(2, ManagedMemory.allocInSame(b, b)); tell(3, ManagedMemory.allocInSame(this, a));",
            "tell(4, ManagedMemory.allocInSame(this, k)); tell(5, ManagedMemory.allocInSame(k, m));",
            "Cell n = null; tell(6, ManagedMemory.allocInSame(n, n)); tell(7, ManagedMemory.allocInSame(this, n)); "
            "tell(8, ManagedMemory.allocInSame(null, m));"),
            fields=" Cell k;", sets="k = new Cell(3); ",
            methods='@RunsIn(CALLER) void tell(int n, boolean is) '
            '{ if (is) Trace.print("same", n); else Trace.print("other", n); }')),
        plan(*released(150, 300, 450))),
    "an override that isn't synchronized": (
        files("class Lock { int n; synchronized int add(int a) { n = n + a; return n; } }\n"
              "class Quiet extends Lock { int add(int a) { n = n - a; return n; } }\n"
              "class Loud extends Quiet { synchronized int add(int a) { return n * a; } }\n",
              handler('Lock z = new Quiet(); Trace.print("q", z.add(2)); z = new Loud(); Trace.print("l", z.add(3)); '
                      'z = new Lock(); Trace.print("k", z.add(4));')), plan(*released(150))),
    "a reading that has just come": (
        begun('Trace.print("a", Device.read(1)); Trace.print("b", Device.read(1)); Trace.print("c", Device.read(1));'),
        plan(units=40, readings=[(1, 5, 50), (1, 8, 80), (1, 10, 100), (1, 11, 115), (1, 11, 110), (1, 13, 130),
                                 (1, 13, 140)])),
    "a fault in a synchronized method": (
        files(LOCK, handler("g.bad(0);", fields=" Gate g;", sets="g = new Gate(); Services.setCeiling(g, 20); ")),
        plan(*released(150))),
    "the end of another mission is asked": (
        files("class G { static Mission first; }\n",
              handler('if (m.k == 1) { @Scope(IMMORTAL) Mission o = G.first; o.requestTermination(); } '
                      'Trace.print("k", m.k); m.requestTermination();'),
              initialize="if (G.first == null) G.first = this; else { k = 1; @Scope(IMMORTAL) Mission o = G.first; "
              "o.requestTermination(); } H h = new H(this); h.register();", fields=" int k;", missions=2),
        plan(*released(150, 260))),
    # one-shot handlers
    "one-shot handlers with a start and without": (
        files(handler(""), TIMED, initialize=one_shots(0, 0, 1, 30, 900)), plan(units=1500)),
    "one-shot handlers in the order of their numbers": (
        files(handler(""), TIMED, initialize=one_shots(40) + " " + one_shots(40, period="0, 40000") + " " + one_shots(40)),
        plan((1, "T"), units=260)),
    "one-shot handlers of a mission that is begun again": (
        files(handler("m.requestTermination();"), TIMED, missions=3,
              initialize=one_shots(0, 20, 100) + " new H(this).register();"), plan((150, "H"), (320, "H"), units=700)),
    "a one-shot handler that is due when an end was asked": (
        files(handler("m.requestTermination(); " + "c = c + 1; " * 6), TIMED,
              initialize=one_shots(30, 31, 42) + " new H(this).register();"), plan((30, "H", "mission"), units=300)),
    "a start that is no int": (
        files(handler(""), "@Scope(\"M\") @DefineScope(name=\"PT\", parent=\"M\") class T extends PeriodicEventHandler {\n"
              " T() { super(new PriorityParameters(9), new PeriodicParameters(new RelativeTime(4294967, 296000), "
              "new RelativeTime(0, 0)), new StorageParameters(0)); }\n public void handleAsyncEvent() { }\n}\n",
              initialize="new T().register();"), plan(units=300)),
    # fires that count from a mission
    "fires from the mission, in its first unit and behind": (
        files(handler('Trace.print("c", c);')), plan(*((at, "H", "mission") for at in (0, 1, 17, 0, 99)), units=300)),
    "fires from a mission that is begun again": (
        files(handler("if (c > 1) m.requestTermination();"), missions=3),
        plan((20, "H", "mission"), (90, "H", "mission"), (80, "H", "mission"), (400, "H", "mission"), units=900)),
    "fires of both kinds in one unit": (
        files(handler('Trace.print("h", c);', priority=5), handler('Trace.print("k", c);', "K", "PK"),
              initialize="new H(this).register(); new K(this).register();"),
        plan((30, "K", "mission"), (85, "H", "start"), (30, "H", "mission"), (86, "K", "start"), (29, "H", "mission"),
             (85, "K", "start"), (31, "H", "mission"), (84, "K", "start"), (30, "N", "mission"), units=300)),
    "a fire from the mission misses while an end is asked": (
        files(handler("m.requestTermination(); " + "c = c + 1; " * 6)),
        plan(*((at, "H", "mission") for at in (10, 18, 19, 20, 25, 60)), (130, "H", "start"), units=300)),
    "fires from a mission without an execution": (
        files(handler(""), initialize="new H(this).register(); requestTermination();", missions=2),
        plan((0, "H", "mission"), (1, "H", "mission"), (60, "H", "start"), units=300)),
    "fires from a mission without handlers": (
        files(handler(""), initialize="", missions=2),
        plan((0, "H", "mission"), (1, "H", "mission"), (60, "H", "start"), units=300)),
    "the last unit of an execution": (
        files(handler("m.requestTermination();"), missions=2),
        plan((0, "H", "mission"), (4, "H", "mission"), (5, "H", "mission"), (6, "H", "mission"), (7, "H", "mission"),
             (8, "H", "mission"), (9, "H", "mission"), (10, "H", "mission"), (11, "H", "mission"), units=400)),
    "many fires from the mission": (
        files(handler("")), plan(*[(3, "H", "mission")] * 65, units=100)),
    # numbers that don't fit
    "the least number": (
        begun('int m = -2147483648; Trace.print("d", m / -1); Trace.print("r", m % -1); Trace.print("n", -m); '
              'Trace.print("p", m * -1); m /= -1; Trace.print("a", m); m -= 1; Trace.print("s", m);'), plan(units=120)),
    "an array whose bytes don't fit": (begun("int[] z = new int[536870910];"), plan(units=40)),
    "an array whose bytes wrap to few": (begun("int[] z = new int[536870911];"), plan(units=40)),
    "an array of the greatest length": (begun("boolean[] z = new boolean[2147483647];"), plan(units=40)),
}


def runs():
    """The runs: the name of each, its files, and its plan."""
    return [(name, *run) for name, run in RUNS.items()]
