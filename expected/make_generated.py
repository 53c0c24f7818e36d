# The generated program of a size and its plan, written apart from crates/source_gen.
#
#   python3 expected/make_generated.py N SOURCE PLAN     writes both files
#   python3 expected/make_generated.py N                 prints the length and the FNV-1a hash of each
import sys

SAFELET = """\
class App implements Safelet {
  public MissionSequencer getSequencer() { return new Seq(); }
  public long immortalMemorySize() { return 400; }
  public void initializeApplication() { }
}
class Seq extends MissionSequencer {
  int n;
  Seq() { super(new PriorityParameters(5), new StorageParameters(0)); }
  public Mission getNextMission() {
    if (n > 0) return null;
    n = n + 1;
    return new Main();
  }
}
"""


def source(size):
    lines = [
        '@DefineScope(name="M", parent="IMMORTAL") class Main extends Mission {',
        'public long missionMemorySize() { return 48; }',
        'public void initialize() { new Work().register(); }',
        '}',
        '@Scope("M") @DefineScope(name="P", parent="M") class Work extends PeriodicEventHandler {',
        'Work() { super(new PriorityParameters(10), new PeriodicParameters(new RelativeTime(0, 0), '
        'new RelativeTime(5, 0)), new StorageParameters(%d)); }' % (24 * size),
        'public void handleAsyncEvent() {',
    ]
    numbers = range(1, size + 1)
    lines += ['Trace.print("d%d", new D%d(%d).get());' % (i, i, i) for i in numbers]
    lines += ['}', '}']
    lines += ['class D%d { int v; D%d(int a) { v = a; } int get() { return v + 1; } }' % (i, i) for i in numbers]
    return SAFELET + ''.join(line + '\n' for line in lines)


def plan(size):
    return 'version = 1\nunits = 50000\nstore = %d\n' % (448 + 24 * size)


def fnv(text):
    h = 0xcbf29ce484222325
    for byte in text.encode('ascii'):
        h = (h ^ byte) * 0x100000001b3 % 2 ** 64
    return h


size = int(sys.argv[1])
if len(sys.argv) == 4:
    open(sys.argv[2], 'w', newline='').write(source(size))
    open(sys.argv[3], 'w', newline='').write(plan(size))
else:
    for text in source(size), plan(size):
        print(len(text), hex(fnv(text)))
