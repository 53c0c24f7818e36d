"""Makes whole programs that break no rule: python3 sources.py SHAPE COUNT FOLDER writes F0.java and so on.

`ordinary` and `few` have COUNT bytes, about. `ordinary` has classes of about 4 KiB, 16 in a file, as a controller has
them: missions, handlers, private memories, shared objects and helpers, in groups of 16, and as densely written as the
pump station in examples/ and its like (4.8 bytes a token, a seventh of the bytes in comments). `few` has one class in each
file of 1 MiB. The hostile ones have COUNT of something:

    chain      classes, each under the one before          scopes     private scopes, each in the one before
    fields     classes of 64 fields                        overrides  classes, each of which overrides a method
    methods    methods of one class                        calls      calls in one method
    locals     uses of 32 locals in one method             deep       bodies of the greatest height
    block      statements of one block
"""

import os
import sys

SAFELET = """// The application: what lives as long as the program, and the missions one after the other.
class App implements Safelet {
  public MissionSequencer getSequencer() { return new Sequence(); }
  public long immortalMemorySize() { return 100000; }
  public void initializeApplication() { }
}

// One mission after the other.
class Sequence extends MissionSequencer {
  int phase;

  Sequence() { super(new PriorityParameters(5), new StorageParameters(0)); }

  public Mission getNextMission() {
    phase++;
    if (phase > 1) return null;
    return new Main0();
  }
"""

MISSION = """
// Mission {k}: what the handlers share is made in its memory.
@DefineScope(name="Mission{k}", parent="IMMORTAL")
class Main{k} extends Mission {{
  int starts;
  int level;
  int limit;
  boolean overflows;

  public long missionMemorySize() {{ return 100000; }}

  public void initialize() {{
    starts = starts + 1;
    Tank{k} tank = new Tank{k}(90);
    Services.setCeiling(tank, 20);
    Alarm{k} alarm = new Alarm{k}(tank);
    alarm.register();
    new Sensor{k}(tank, alarm).register();
  }}

  public void cleanUp() {{ Trace.print("cleanup", starts); }}
"""

SHARED = """
// What both handlers know of the tank. A measurement is copied into it.
@Scope("Mission{k}")
class Tank{k} {{
  int level;
  int limit;
  boolean overflows;
  Measurement{k} last;

  Tank{k}(int most) {{
    limit = most;
    last = new Measurement{k}(0);
  }}
"""

ALARM = """
// Says that the tank is too full, when the sensor asks it to.
@Scope("Mission{k}") @DefineScope(name="Alarm{k}", parent="Mission{k}")
class Alarm{k} extends AperiodicEventHandler {{
  Tank{k} tank;
  int level;
  int limit;
  boolean overflows;

  Alarm{k}(Tank{k} watched) {{
    super(new PriorityParameters(18), new AperiodicParameters(), new StorageParameters(0));
    tank = watched;
  }}

  public void handleAsyncEvent() {{ Trace.print("alarm", tank.weighted0(1)); }}
"""

SENSOR = """
// Measures every two milliseconds, and works on what it measured in a memory of its own.
@Scope("Mission{k}") @DefineScope(name="Sensor{k}", parent="Mission{k}")
class Sensor{k} extends PeriodicEventHandler {{
  Tank{k} tank;
  Alarm{k} alarm;
  int level;
  int limit;
  boolean overflows;

  Sensor{k}(Tank{k} watched, Alarm{k} asked) {{
    super(new PriorityParameters(12), new PeriodicParameters(new RelativeTime(0, 0), new RelativeTime(2, 0)), new StorageParameters(2000));
    tank = watched;
    alarm = asked;
  }}

  public void handleAsyncEvent() {{
    Measurement{k} measured = new Measurement{k}(Device.read(1));
    tank.follow0(measured);
    ManagedMemory.enterPrivateMemory(500, new Step{k}(tank, measured));
    if (measured.level > 90) alarm.release();
  }}
"""

STEP = """
// Smooths a measurement. What it makes is gone when it ends.
@Scope("Sensor{k}") @DefineScope(name="Private{k}", parent="Sensor{k}")
class Step{k} implements Runnable {{
  Tank{k} tank;
  Measurement{k} measured;
  int level;
  int limit;
  boolean overflows;

  Step{k}(Tank{k} watched, @Scope("Sensor{k}") Measurement{k} taken) {{
    tank = watched;
    measured = taken;
  }}

  public void run() {{
    Measurement{k} smoothed = measured.plus0(new Measurement{k}(level));
    tank.follow0(smoothed);
  }}
"""

NOTE = """
// A measurement may be made in any memory.
class Measurement{k} {{
  int level;
  int limit = 90;
  boolean overflows;
  Measurement{k} next;

  Measurement{k}(int start) {{ level = start; }}
"""

OTHER = """
// A filter over the last measurements, the oldest of which is forgotten first.
class Filter{k}x{j} {{
  int level;
  int limit = 40;
  boolean overflows;
  int[] weights;
  Measurement{k} first;

  Filter{k}x{j}(int length) {{
    weights = new int[length];
    first = new Measurement{k}(length);
  }}

  int weighted0(int factor) {{ return factor + weights.length; }}
"""

# Methods of numbers, in each class; `{c}` is what stands before a method that runs in its caller's area.
NUMBERS = """
  // Pours in an amount, and tells how much went in.
  {c}int pour{i}(int amount, int steps) {{
    int poured = 0;
    for (int step = 0; step < steps; step++) {{
      if (level + amount > limit) {{
        overflows = true;
        return poured;
      }}
      level += amount;
      poured = poured + amount * 2 - step / 3;
    }}
    while (level > limit && !overflows) level = level - 1;
    return poured + (level << 2) % 7;
  }}
"""

TAKES = """
  // Follows a measurement. Its number is copied: it may lie in a private memory.
  {c}synchronized void follow{i}(Measurement{k} measured) {{
    if (measured.level > last.level || overflows) {{
      last.level = measured.level;
      level = level + 1;
    }}
    Measurement{k} newest = measured;
    if (newest.next == null) newest = new Measurement{k}(level);
    level = newest.plus0(measured).level;
  }}

  // The level, weighted, against the last measurement.
  {c}synchronized int weighted{i}(int factor) {{ return level * factor - last.level; }}
"""

NOTES = """
  // A new measurement, made where the caller runs.
  Measurement{k} plus{i}(Measurement{k} other) {{
    Measurement{k} sum = new Measurement{k}(level + other.level);
    if (other == this || other.overflows) return other;
    sum.next = null;
    return sum;
  }}

  // Keeps another measurement of the same memory behind this one.
  @RunsIn(Scope.THIS) void keep{i}(Measurement{k} other) {{
    next = other;
    other.next = this.next;
  }}
"""


def grown(head, bodies, size, **names):
    """A class of about the size: its head, then methods until the size is reached."""
    text, number = [head.format(**names)], 0
    length = len(text[0])
    while number == 0 or length < size:
        for body in bodies:
            more = body.format(i=number, **names)
            text.append(more)
            length += len(more)
        number += 1
    return "".join(text) + "}\n"


def group(k, size, first):
    """Sixteen classes around one mission, each of about the size."""
    caller = "@RunsIn(Scope.CALLER) "
    parts = [(MISSION, [NUMBERS], ""), (SHARED, [TAKES, NUMBERS], caller), (ALARM, [NUMBERS], ""), (SENSOR, [NUMBERS], ""), (STEP, [NUMBERS], ""), (NOTE, [NOTES, NUMBERS], "")]
    text = [grown(head, bodies, size, k=k, c=before) for head, bodies, before in parts]
    others = 8 if first else 10
    text += [grown(OTHER, [NUMBERS], size, k=k, j=j, c="") for j in range(others)]
    return "".join(text)


def ordinary(count):
    groups = max(1, count // 65536)
    files = []
    for k in range(groups):
        begin = SAFELET + "}\n" if k == 0 else ""
        files.append(begin + group(k, 4446 if k == 0 else 3880, k == 0))
    return files


def few(count):
    files = max(1, count // 1048576)
    texts = [grown(NOTE, [NOTES, NUMBERS], count // files - 3000, k=k, c="") for k in range(files)]
    return [HEAD + texts[0]] + texts[1:]


HEAD = """class App implements Safelet {
  public MissionSequencer getSequencer() { return null; }
  public long immortalMemorySize() { return 64; }
  public void initializeApplication() { }
}
"""
MISSION_SCOPE = '@DefineScope(name="M", parent="IMMORTAL") abstract class Main extends Mission { }\n'


def chain(count):
    return [HEAD + "class C0 { int f0; int m0() { return f0; } }\n" + "".join(f"class C{n} extends C{n - 1} {{ int m{n}() {{ return m0() + m{n - 1}(); }} }}\n" for n in range(1, count))]


def fields(count):
    return [HEAD + "".join(f"class C{n} {{ " + " ".join(f"int f{k};" for k in range(64)) + f" int m() {{ return f0 + f63; }} }}\n" for n in range(count))]


def methods(count):
    return [HEAD + "class C {\n" + "".join(f"int m{n}() {{ return m{n * 7919 % count}(); }}\n" for n in range(count)) + "}\n"]


def locals_(count):
    names = " ".join(f"int x{n} = {n};" for n in range(31))
    return [HEAD + "class C { void m(int a) {\n" + names + "\n" + "".join(f"x{n % 31} = x{n * 7 % 31};\n" for n in range(count // 2)) + "} }\n"]


def block(count):
    return [HEAD + "class C { void m(int x) {\n" + "x = 1;\n" * count + "} }\n"]


def scopes(count):
    text = ['@Scope("M") @DefineScope(name="S0", parent="M") class R0 implements Runnable { public void run() { } }\n']
    for n in range(1, count):
        text.append(f'@Scope("S{n - 1}") @DefineScope(name="S{n}", parent="S{n - 1}") class R{n} implements Runnable {{ @Scope("M") Object o; public void run() {{ }} }}\n')
    return [HEAD + MISSION_SCOPE + "".join(text)]


def overrides(count):
    text = ["class C0 { @RunsIn(Scope.THIS) Object m(@Scope(Scope.THIS) Object o, Object p) { return o; } }\n"]
    text += [f"class C{n} extends C{n - 1} {{ @RunsIn(Scope.THIS) Object m(Object o, @Scope(Scope.THIS) Object p) {{ return p; }} }}\n" for n in range(1, count)]
    return [HEAD + "".join(text)]


def calls(count):
    return [HEAD + "class C { C g(C a) { return a; } void m(C a, C b) {\n" + "b.g(a);\n" * count + "} }\n"]


def deep(count):
    body = "if (b) " + "{" * 30 + "x = " + "(" * 30 + "1" + ")" * 30 + ";" + "}" * 30
    return [HEAD + "class C { int x;\n" + "".join(f"void m{n}(boolean b) {{ {body} }}\n" for n in range(count)) + "}\n"]


SHAPES = {"ordinary": ordinary, "few": few, "chain": chain, "fields": fields, "methods": methods, "locals": locals_, "block": block, "scopes": scopes, "overrides": overrides, "calls": calls, "deep": deep}


def write_files(texts, folder):
    for number, text in enumerate(texts):
        with open(os.path.join(folder, f"F{number}.java"), "w") as file:
            file.write(text)


def main():
    shape, count, folder = sys.argv[1], int(sys.argv[2]), sys.argv[3]
    write_files(SHAPES[shape](count), folder)


if __name__ == "__main__":
    main()
