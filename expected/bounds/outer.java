class App implements Safelet {
  public MissionSequencer getSequencer() { return new Seq(); }
  public long immortalMemorySize() { return 400; }
  public void initializeApplication() { }
}
class Seq extends MissionSequencer {
  Seq() { super(new PriorityParameters(5), new StorageParameters(0)); }
  int n;
  public Mission getNextMission() { if (n > 0) return null; n = n + 1; return new Main(); }
}
@DefineScope(name="M", parent="IMMORTAL") class Main extends Mission {
  public long missionMemorySize() { return 1001; }
  public void initialize() { new A().register(); new B().register(); new C().register(); new D().register(); }
}
class Box { int v; Box(int a) { v = a; } }
@Scope("M") @DefineScope(name="PA", parent="M") class A extends AperiodicEventHandler {
  A() { super(new PriorityParameters(7), new AperiodicParameters(), new StorageParameters(16)); }
  public void handleAsyncEvent() { ManagedMemory.executeInAreaOf(this, new OutA()); }
}
@Scope("M") @DefineScope(name="PB", parent="M") class B extends AperiodicEventHandler {
  B() { super(new PriorityParameters(7), new AperiodicParameters(), new StorageParameters(16)); }
  public void handleAsyncEvent() { ManagedMemory.executeInAreaOf(this, new OutB()); }
}
@Scope("PA") class OutA implements Runnable { @RunsIn("M") public void run() { Trace.print("a", 1); } }
@Scope("PB") class OutB implements Runnable { @RunsIn("M") public void run() { new Box(1); } }
@Scope("M") @DefineScope(name="PC", parent="M") class C extends AperiodicEventHandler {
  Box box;
  C() {
    super(new PriorityParameters(7), new AperiodicParameters(), new StorageParameters(0));
    box = new Box(0);
  }
  public void handleAsyncEvent() { box.v = Device.read(1); }
}
@Scope("M") @DefineScope(name="PD", parent="M") class D extends AperiodicEventHandler {
  D() { super(new PriorityParameters(7), new AperiodicParameters(), new StorageParameters(16)); }
  public void handleAsyncEvent() { ManagedMemory.executeInAreaOf(this, new OutD()); }
}
@Scope("PD") class OutD implements Runnable { @RunsIn("M") public void run() { Trace.print("d", 1); } }
@Scope("PD") class LowD extends OutD { @RunsIn("M") public void run() { new Box(1); } }
