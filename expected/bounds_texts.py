"""Programs with handlers that fill their private memories in many ways, made from a random source.

`text` gives such a program, which breaks no rule. Its storages and the sizes of its private memories are large, so that
most of its classes have a bound. `PLAN` is a plan of such a program, and `plan` another one, whose fires and readings come
from a random source.
"""

UNITS = 3000
PLAN = {"version": 1, "units": UNITS, "store": 1 << 20}
LITERALS = ["0", "1", "2", "3", "5", "9"]
NOT_LITERALS = ["(2)", "1 + 1", "n", "Tool.two()"]

HEAD = """class App implements Safelet {
  public MissionSequencer getSequencer() { return new Seq(); }
  public long immortalMemorySize() { return %d; }
  public void initializeApplication() { }
}
class Seq extends MissionSequencer {
  Seq() { super(new PriorityParameters(5), new StorageParameters(0)); }
  int n;
  public Mission getNextMission() { if (n > 0) return null; n = n + 1; return new Main(); }
}
@DefineScope(name="M", parent="IMMORTAL") class Main extends Mission {
  public long missionMemorySize() { return %d; }
  public void initialize() { %s }
}
class Box { int v; Box(int a) { v = a; } }
class Pair extends Box { Box b; Pair(int a) { super(a); %s } }
class Plain extends Base { }
class Base { int c; Box d; Base() { %s } }
abstract class Shape { int w; abstract void make(int n); int size() { int n = w; %s return 1; } }
class Wide extends Shape { void make(int n) { %s } }
class Small extends Shape { void make(int n) { %s } int size() { int n = w; %s return 2; } }
class Tool {
  static int two() { return 2; }
"""
TOOLS = 4


def of(chance, port):
    return "Device.read(%d) > %d" % (port, chance.choice([-1, 20, 50, 80]))


def length(chance):
    return chance.choice(LITERALS) if chance.random() < 0.97 else chance.choice(NOT_LITERALS)


class Bodies:
    """Statements for the body of a method, in which `n` is an int."""

    def __init__(self, chance):
        self.chance, self.names = chance, 0

    def name(self):
        self.names += 1
        return "x%d" % self.names

    def make(self, tools):
        """A statement that makes something or calls what does; of the tools those from a number on."""
        chance = self.chance
        kinds = ["box", "pair", "plain", "array", "objects", "object", "tool", "tool", "shape", "nothing"]
        kind = chance.choice(kinds)
        if kind == "tool" and tools < TOOLS:
            return "Tool.t%d(n - 1);" % chance.randrange(tools, TOOLS)
        if kind == "shape":
            it, call = self.name(), chance.choice(["make(1)", "size()"])
            return "Shape %s = new %s(); if (%s) %s = new %s(); %s.%s;" % (
                it, chance.choice(["Wide", "Small"]), of(chance, 1), it, chance.choice(["Wide", "Small"]), it, call)
        one = {
            "box": "new Box(n);",
            "pair": "new Pair(n);",
            "plain": "new Plain();",
            "object": "new Object();",
            "array": "int[] %s = new int[%s];" % (self.name(), length(chance)),
            "objects": "Box[] %s = new Box[%s];" % (self.name(), length(chance)),
        }
        return one.get(kind, "Trace.print(\"n\", n);")

    def some(self, tools, depth, most=3):
        return " ".join(self.statement(tools, depth) for _ in range(self.chance.randint(0, most)))

    def statement(self, tools, depth=2):
        chance, kind = self.chance, self.chance.random()
        if depth and kind < 0.25:
            other = " else { %s }" % self.some(tools, depth - 1) if chance.random() < 0.6 else ""
            return "if (%s) { %s }%s" % (self.condition(), self.some(tools, depth - 1), other)
        if depth and kind < 0.32:
            it = self.name()
            inner = self.some(tools, depth - 1, 1) if chance.random() < 0.15 else 'Trace.print("i", %s);' % it
            return "for (int %s = 0; %s < 2; %s = %s + 1) { %s }" % (it, it, it, it, inner)
        return self.make(tools)

    def condition(self):
        chance = self.chance
        port = chance.randrange(3)
        if chance.random() < 0.15:
            return "new Box(n).v > 0 %s %s" % (chance.choice(["&&", "||"]), of(chance, port))
        return of(chance, port)

    def recursion(self, calls):
        """A tool's call of an earlier tool or of itself, which ends with `n`."""
        return "if (n > 0) %s" % calls if self.chance.random() < 0.04 else ""


HANDLER = """@Scope("M") @DefineScope(name="P%(k)s", parent="M") class H%(k)s extends %(kind)s {
  H%(k)s() { super(new PriorityParameters(%(priority)d), %(times)s, new StorageParameters(%(storage)s)); }
  public void handleAsyncEvent() {
    int n = Device.read(3);
    %(body)s
  }
}
@DefineScope(name="Q%(k)s", parent="P%(k)s") class In%(k)s implements Runnable {
  public void run() { int n = 1; %(inner)s }
}
@DefineScope(name="R%(k)s", parent="Q%(k)s") class Deep%(k)s implements Runnable {
  public void run() { int n = 2; %(deep)s }
}
@Scope("P%(k)s") class Out%(k)s implements Runnable {
  @RunsIn("M") public void run() { int n = 1; %(outer)s }
}
@Scope("P%(k)s") class More%(k)s extends Out%(k)s {
  @RunsIn("M") public void run() { int n = 1; %(more)s }
}
"""


def size(chance, small):
    if chance.random() < 0.02:
        return chance.choice(["(4000)", "2 * 1000"])
    return str(chance.randrange(0, 60) if chance.random() < small else 4000)


def handler(chance, bodies, k):
    enters = ["ManagedMemory.enterPrivateMemory(%s, new In%s());" % (size(chance, 0.05), k) for _ in range(chance.choice([0, 0, 1, 2]))]
    outer = ["ManagedMemory.executeInAreaOf(this, new Out%s());" % k] if chance.random() < 0.2 else []
    body = [bodies.statement(0) for _ in range(chance.randint(0, 4))] + enters + outer
    chance.shuffle(body)
    deep = "ManagedMemory.enterPrivateMemory(%s, new Deep%s());" % (size(chance, 0.05), k) if chance.random() < 0.4 else ""
    is_periodic = chance.random() < 0.5
    return HANDLER % {
        "k": k,
        "kind": "PeriodicEventHandler" if is_periodic else "AperiodicEventHandler",
        "priority": chance.randint(6, 28),
        "times": "new PeriodicParameters(new RelativeTime(0, 0), new RelativeTime(0, 400000))" if is_periodic else "new AperiodicParameters()",
        "storage": size(chance, 0.05),
        "body": "\n    ".join(body),
        "inner": bodies.some(0, 1) + deep,
        "deep": bodies.some(2, 1),
        "outer": 'Trace.print("o", n);' if chance.random() < 0.8 else bodies.some(3, 0, 1),
        "more": 'Trace.print("m", n);' if chance.random() < 0.9 else "new Box(1);",
    }


def text(chance):
    bodies = Bodies(chance)
    kinds = ["A", "B", "C"][: chance.randint(1, 3)]
    registered = " ".join("new H%s().register();" % k for k in kinds)
    parts = [chance.randrange(400, 500), chance.randrange(1000, 1100), registered]
    parts += [chance.choice(["", "b = new Box(a);"]), chance.choice(["", "d = new Box(3);"]), bodies.some(2, 0, 1)]
    parts += [bodies.some(1, 1), bodies.some(2, 1), bodies.some(3, 0, 1)]
    lines = [HEAD % tuple(parts)]
    for tool in range(TOOLS):
        again = bodies.recursion("t%d(n - 1);" % chance.randrange(0, tool + 1))
        lines.append("  static void t%d(int n) { %s %s }\n" % (tool, bodies.some(tool + 1, 1), again))
    lines.append("}\n")
    lines += [handler(chance, bodies, k) for k in kinds]
    return "".join(lines)


def plan(chance, handlers):
    fires = sorted((chance.randrange(40, UNITS), chance.choice(handlers)) for _ in range(8)) if handlers else []
    rows = [(chance.randrange(4), chance.randrange(0, UNITS), chance.randrange(0, 100)) for _ in range(24)]
    return {
        **PLAN,
        "fire": [{"at": at, "handler": handler} for at, handler in fires],
        "reading": [{"port": port, "at": at, "value": value} for port, at, value in rows],
    }
