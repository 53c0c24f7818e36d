"""Makes a loop for `scj run`, CPython and Java: python3 run_sources.py LOOP COUNT FOLDER writes A.java, plan.toml,
loop.py and Loop.java, for a run of COUNT units.

    arithmetic   sums and bits
    calls        calls and field accesses
    handlers     64 periodic handlers at the 28 priorities, which keep the machine busy
    releases     a release in each ten units

The first two print the same number in all three. In the others CPython and Java make the calls that the machine makes,
without choosing whom to call. CPython wraps to 32 bits where a number may not fit.

For two loops it writes A.java and plan.toml alone: one release enters a private memory COUNT times, in a run of
10,000,000 units, and prints how often it did.

    areas        two objects in each
    arrays       an array of 6,000,000 elements in each, which fills it; the store has no byte more than the areas
"""

import pathlib
import sys

FRONT = """class App implements Safelet {
 public MissionSequencer getSequencer() { return new Seq(); }
 public long immortalMemorySize() { return 10000; }
 public void initializeApplication() { %s }
}
class Seq extends MissionSequencer {
 int n;
 Seq() { super(new PriorityParameters(5), new StorageParameters(0)); }
 public Mission getNextMission() { if (n >= %d) return null; n = n + 1; %s }
}
"""
MISSION = """@DefineScope(name="M", parent="IMMORTAL") class Main extends Mission {
 public long missionMemorySize() { return 10000; }
 public void initialize() { %s }
}
@Scope("M") @DefineScope(name="P", parent="M") class H extends PeriodicEventHandler {
 int n; int k;
 H(int p, int s, int q) { super(new PriorityParameters(p), new PeriodicParameters(
   new RelativeTime(s / 1000, s %% 1000 * 1000), new RelativeTime(q / 1000, q %% 1000 * 1000)), new StorageParameters(%d));
  k = p; }
 public void handleAsyncEvent() { %s }
}
"""
PLAN = "version = 1\nunits = %d\nstore = %d\n"
JAVA = """class Loop {
 public static void main(String[] words) { %s }
}
"""

ARITHMETIC = "int i = 0; int s = 1; while (i < %d) { s = s * 31 + (i ^ (s >>> 7)); if (i >= 0) s = s - (i & 7); i = i + 1; }"
ARITHMETIC_PYTHON = """
def run(n):
    i, s = 0, 1
    while i < n:
        s = (s * 31 + (i ^ ((s & 0xFFFFFFFF) >> 7)) + 0x80000000 & 0xFFFFFFFF) - 0x80000000
        if i >= 0:
            s = (s - (i & 7) + 0x80000000 & 0xFFFFFFFF) - 0x80000000
        i = i + 1
    return s

print("sum", run(%d))
"""

CALLS = """Pair a = new Pair(); Pair b = new Pair(); a.next = b; b.next = a; b.w = 3; int i = 0; int s = 1;
 while (i < %d) { s = s + a.add(i); a.turn(); a = a.next; a.w = a.w + s; i = i + 1; }"""
PAIR = """class Pair {
 int v; int w; Pair next;
 int add(int x) { v = v + x; return v ^ w; }
 void turn() { int t = v; v = w; w = t; }
}
"""
CALLS_PYTHON = """
class Pair:
    __slots__ = "v", "w", "next"

    def __init__(self):
        self.v, self.w, self.next = 0, 0, None

    def add(self, x):
        self.v = (self.v + x + 0x80000000 & 0xFFFFFFFF) - 0x80000000
        return self.v ^ self.w

    def turn(self):
        t = self.v
        self.v = self.w
        self.w = t

def run(n):
    a, b = Pair(), Pair()
    a.next, b.next, b.w = b, a, 3
    i, s = 0, 1
    while i < n:
        s = (s + a.add(i) + 0x80000000 & 0xFFFFFFFF) - 0x80000000
        a.turn()
        a = a.next
        a.w = (a.w + s + 0x80000000 & 0xFFFFFFFF) - 0x80000000
        i = i + 1
    return s

print("sum", run(%d))
"""

HANDLER_JAVA = """class H {
 int n; int k;
 H(int p) { k = p; }
 void handleAsyncEvent() { %s }
}
"""
CALLED_JAVA = """H[] all = new H[%d]; for (int i = 0; i < all.length; i++) all[i] = new H(1 + i * 11 %% 28);
 for (int j = 0; j < %d; j++) for (int i = 0; i < all.length; i++) all[i].handleAsyncEvent();"""
CALLED_PYTHON = """
class H:
    __slots__ = "n", "k"

    def __init__(self, p):
        self.n, self.k = 0, p

    def handle(self):
%s

def run(count, rounds):
    handlers = [H(1 + i * 11 %% 28) for i in range(count)]
    for _ in range(rounds):
        for h in handlers:
            h.handle()

run(%d, %d)
"""
SUMS = "for (int i = 0; i < 4; i++) n = n + k;"
SUMS_PYTHON = """        for i in range(4):
            self.n = (self.n + self.k + 0x80000000 & 0xFFFFFFFF) - 0x80000000"""
ONE_SUM = "int a = 1; n = n + 1;"
ONE_SUM_PYTHON = """        a = 1
        self.n = (self.n + 1 + 0x80000000 & 0xFFFFFFFF) - 0x80000000"""
# The units between two releases of one of the 64 handlers; each release takes 68.
ROUND = 4400

# One release, which enters a private memory again and again, and what it does there.
ENTERED = """In r = new In(); int i = 0; while (i < %d) { ManagedMemory.enterPrivateMemory(%d, r); i = i + 1; }
  Trace.print("entered", r.n);"""
INNER = """@DefineScope(name="Q", parent="P") class In implements Runnable { int n; public void run() { %s } }
class Box { int v; Box next; }
"""
BOXES = "Box a = new Box(); a.next = new Box(); n = n + 1;"
ELEMENTS = "int[] a = new int[6000000]; a[5999999] = n + 1; n = a[5999999];"


def turned(units, turn, loop, classes, python):
    """As many turns of a loop, each of so many units, as there is time for, and a print of what they come to."""
    turns = (units - 100) // turn
    return {
        "A.java": FRONT % (loop % turns + ' Trace.print("sum", s);', 0, "return null;") + classes,
        "Loop.java": classes + JAVA % (loop % turns + ' System.out.println("sum " + s);'),
        "loop.py": python % turns}


def released(units, handlers, body, python, start, period):
    """So many units of handlers that are released in each period, one after the other."""
    begin = "for (int i = 0; i < %d; i++) new H(1 + i * 11 %% 28, i * %d, %d).register();" % (
        handlers, start, period)
    rounds = units // period
    return {
        "A.java": FRONT % ("", 1, "return new Main();") + MISSION % (begin, 0, body),
        "Loop.java": HANDLER_JAVA % body + JAVA % (CALLED_JAVA % (handlers, rounds)),
        "loop.py": CALLED_PYTHON % (python, handlers, rounds)}


def entered(count, size, body):
    """A private memory of so many bytes, entered so many times in one release. The other areas have 20,024 bytes."""
    once = ENTERED % (count, size)
    return {
        "A.java": FRONT % ("", 1, "return new Main();") + MISSION % ("new H(5, 0, 0).register();", 24, once) + INNER % body,
        "plan.toml": PLAN % (10_000_000, 20_024 + size)}


def made(loop, units):
    if loop == "areas":
        return entered(units, 2 * 32, BOXES)
    if loop == "arrays":
        return entered(units, 8 * (2 + 6_000_000), ELEMENTS)
    if loop == "arithmetic":
        return turned(units, 28, ARITHMETIC, "", ARITHMETIC_PYTHON)
    if loop == "calls":
        return turned(units, 48, CALLS, PAIR, CALLS_PYTHON)
    if loop == "handlers":
        return released(units, 64, SUMS, SUMS_PYTHON, 60, ROUND)
    return released(units, 1, ONE_SUM, ONE_SUM_PYTHON, 0, 10)


def main():
    loop, units, folder = sys.argv[1], int(sys.argv[2]), pathlib.Path(sys.argv[3])
    texts = {"plan.toml": PLAN % (units, 100_000), **made(loop, units)}
    for name, text in texts.items():
        (folder / name).write_text(text)


main()
