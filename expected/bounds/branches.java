class App implements Safelet {
  public MissionSequencer getSequencer() { return new Seq(); }
  public long immortalMemorySize() { return 400; }
  public void initializeApplication() { }
}
class Seq extends MissionSequencer {
  Seq() { super(new PriorityParameters(5), new StorageParameters(0)); }
  int n;
  public Mission getNextMission() { if (n > 0) return null; n = n + 1; return new Main(); }
}
@DefineScope(name="M", parent="IMMORTAL") class Main extends Mission {
  public long missionMemorySize() { return 1001; }
  public void initialize() { new A().register(); new B().register(); new C().register(); new D().register(); new E().register(); }
}
class Box { int v; Box(int a) { v = a; } }
@Scope("M") @DefineScope(name="PA", parent="M") class A extends AperiodicEventHandler {
  A() { super(new PriorityParameters(7), new AperiodicParameters(), new StorageParameters(72)); }
  public void handleAsyncEvent() { if (Device.read(1) > 0) { new Box(1); new Box(2); new Box(3); } else new Box(4); }
}
@Scope("M") @DefineScope(name="PB", parent="M") class B extends AperiodicEventHandler {
  B() { super(new PriorityParameters(7), new AperiodicParameters(), new StorageParameters(71)); }
  public void handleAsyncEvent() { if (Device.read(1) > 0) { new Box(1); new Box(2); new Box(3); } else new Box(4); }
}
@Scope("M") @DefineScope(name="PC", parent="M") class C extends AperiodicEventHandler {
  C() { super(new PriorityParameters(7), new AperiodicParameters(), new StorageParameters(48)); }
  public void handleAsyncEvent() { Box b = new Box(0); if (b.v > 0) { } else { b = new Box(1); } }
}
@Scope("M") @DefineScope(name="PD", parent="M") class D extends AperiodicEventHandler {
  D() { super(new PriorityParameters(7), new AperiodicParameters(), new StorageParameters(24)); }
  public void handleAsyncEvent() { if (new Box(1).v > 0 && Device.read(1) > 0) Trace.print("d", 1); }
}
@Scope("M") @DefineScope(name="PE", parent="M") class E extends AperiodicEventHandler {
  E() { super(new PriorityParameters(7), new AperiodicParameters(), new StorageParameters(48)); }
  public void handleAsyncEvent() { if (new Box(1).v > 0 && new Box(2).v > 0) Trace.print("e", 1); }
}
