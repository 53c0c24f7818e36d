class App implements Safelet<Main> {
  static App only; static int starts = 0;
  public MissionSequencer getSequencer() { only = this; return new Seq(1); }
  public long immortalMemorySize() { return 64; }
  public void initializeApplication() { App.starts = starts + 1; }
}
class Seq extends MissionSequencer<Main> {
  int left; Main main;
  Seq(int n) { super(new PriorityParameters(n + 4), new StorageParameters(0)); left = n; }
  public Main getNextMission() {
    if (left == 0) return null;
    left = left - 1; main = new Main();
    return main;
  }
}
@DefineScope(name="M", parent="IMMORTAL") class Main extends Mission {
  public long missionMemorySize() { return 500; }
  public void initialize() {
    Tank tank = new Tank(new Note(1)); Tank[] all = new Tank[2]; all[0] = tank;
    Services.setCeiling(all[0], 20);
    Alarm alarm = new Alarm(tank, this);
    alarm.register(); new Sensor(tank, alarm).register();
  }
}
@Scope("M") class Tank {
  int level = -1; boolean full = false; Note last = null; @Scope(IMMORTAL) Object owner;
  Tank(Note first) { last = first; this.owner = App.only; }
  @RunsIn(CALLER) synchronized void take(Note n, @Scope(THIS) Note own) {
    if (n.value > level && !full) { level = n.value; last.value = Note.twice(level); } else last = own;
  }
  @RunsIn(CALLER) synchronized int get() { return level; }
  Note swap(Note n) { Note old = last; last = n; return old; }
}
class Note {
  int value; Note next; int[] rows; static Object none;
  Note(int v) { value = v; rows = new int[v]; }
  static int twice(int v) { return v * 2; }
  Note plus(Note o) { Note sum = new Note(value + o.value); sum.next = o; return sum; }
  @RunsIn(THIS) void link(Note o) { next = o; this.next.next = null; }
  @Scope(THIS) Note end() { @Scope(THIS) Note at = this; while (at.next != null) at = at.next; return at; }
  int sum() { int s = 0; for (int i = 0; i < rows.length; i++) s += rows[i]; return s; }
}
abstract class Filter { abstract int step(Note n); @RunsIn("M") void reset(Object o) { } }
@Scope("M") class Mean extends Filter {
  @RunsIn(CALLER) int step(Note n) { return n.value / 2; }
  void reset(@Scope(M) Object o) { Object kept = o; }
}
@Scope("M") @DefineScope(name="A", parent="M") class Alarm extends AperiodicEventHandler {
  Tank tank; Main main;
  Alarm(Tank t, Main m) { super(new PriorityParameters(18), new AperiodicParameters(), new StorageParameters(0)); tank = t; main = m; }
  public void handleAsyncEvent() {
    Trace.print("alarm", tank.get()); Log log = new Log(tank);
    ManagedMemory.executeInAreaOf(tank, log);
    if (tank.full) main.requestTermination();
  }
}
@Scope("M") @DefineScope(name="S", parent="M") class Sensor extends PeriodicEventHandler {
  Tank tank; Alarm alarm; Filter filter;
  Sensor(Tank t, Alarm a) {
    super(new PriorityParameters(12), new PeriodicParameters(new RelativeTime(0, 0), new RelativeTime(2, 0)), new StorageParameters(24));
    tank = t; alarm = a; filter = new Mean();
  }
  public void handleAsyncEvent() {
    Note n = new Note(Device.read(1)); Object o = n; Note same = (Note) o;
    tank.take(n.plus(same), tank.last); n.link(same); n = n.end();
    ManagedMemory.enterPrivateMemory(64, new Step(tank, n));
    if (filter.step(n) > 90 || n.sum() < 0) alarm.release();
  }
}
class Log implements Runnable {
  @Scope(IMMORTAL) Object where; int n;
  Log(Tank t) { n = t.get(); }
  @RunsIn("M") public void run() { n = n + 1; }
}
@Scope("S") @DefineScope(name="P", parent="S") class Step implements Runnable {
  Tank tank; Note note;
  Step(Tank t, Note n) { tank = t; note = n; }
  public void run() { Note mean = new Note(note.value); tank.take(mean, null); Tank[] two = new Tank[2]; two[1] = tank; }
}
