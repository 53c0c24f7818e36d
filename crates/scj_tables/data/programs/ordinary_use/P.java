@DefineScope(name="M", parent="IMMORTAL")
class Main extends Mission {
  public long missionMemorySize() { return 200; }
  @RunsIn("M") public void initialize() {
    Tank t = new Tank();
    Services.setCeiling(t, 20);
    Alarm a = new Alarm(t);
    a.register();
    Sensor s = new Sensor(t, a);
    s.register();
    Pump p = new Pump(t);
    p.register();
  }
}
@Scope("M") class Tank {
  int level;
  @RunsIn(CALLER) synchronized void set(int v) { level = v; }
  @RunsIn(CALLER) synchronized int get() { return level; }
}
class Box { int v; Box(int a) { v = a; } }
@Scope("M") @DefineScope(name="PA", parent="M") class Alarm extends AperiodicEventHandler {
  Tank t;
  Alarm(Tank x) { super(new PriorityParameters(18), new AperiodicParameters(), new StorageParameters(0)); t = x; }
  public void handleAsyncEvent() { Trace.print("alarm", t.get()); }
}
@Scope("M") @DefineScope(name="PS", parent="M") class Sensor extends PeriodicEventHandler {
  Tank t; Alarm a;
  Sensor(Tank x, Alarm y) { super(new PriorityParameters(12), new PeriodicParameters(new RelativeTime(0, 0), new RelativeTime(2, 0)), new StorageParameters(24)); t = x; a = y; }
  public void handleAsyncEvent() {
    Box b = new Box(Device.read(1));
    t.set(b.v);
    if (b.v > 90) a.release();
  }
}
@Scope("M") @DefineScope(name="PP", parent="M") class Pump extends PeriodicEventHandler {
  Tank t;
  Pump(Tank x) { super(new PriorityParameters(10), new PeriodicParameters(new RelativeTime(0, 5000), new RelativeTime(2, 500000)), new StorageParameters(0)); t = x; }
  public void handleAsyncEvent() { Trace.print("pump", t.get()); }
}
