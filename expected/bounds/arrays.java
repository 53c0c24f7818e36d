class App implements Safelet {
  public MissionSequencer getSequencer() { return new Seq(); }
  public long immortalMemorySize() { return 400; }
  public void initializeApplication() { }
}
class Seq extends MissionSequencer {
  Seq() { super(new PriorityParameters(5), new StorageParameters(0)); }
  int n;
  public Mission getNextMission() { if (n > 0) return null; n = n + 1; return new Main(); }
}
@DefineScope(name="M", parent="IMMORTAL") class Main extends Mission {
  public long missionMemorySize() { return 1001; }
  public void initialize() { new A().register(); new B().register(); new C().register(); new D().register(); new E().register(); }
}
class Box { int v; Box(int a) { v = a; } }
@Scope("M") @DefineScope(name="PA", parent="M") class A extends AperiodicEventHandler {
  A() { super(new PriorityParameters(7), new AperiodicParameters(), new StorageParameters(56)); }
  public void handleAsyncEvent() { int[] a = new int[5]; }
}
@Scope("M") @DefineScope(name="PB", parent="M") class B extends AperiodicEventHandler {
  B() { super(new PriorityParameters(7), new AperiodicParameters(), new StorageParameters(56)); }
  public void handleAsyncEvent() { int[] a = new int[(5)]; }
}
@Scope("M") @DefineScope(name="PC", parent="M") class C extends AperiodicEventHandler {
  C() { super(new PriorityParameters(7), new AperiodicParameters(), new StorageParameters(56)); }
  public void handleAsyncEvent() { int[] a = new int[2 + 3]; }
}
@Scope("M") @DefineScope(name="PD", parent="M") class D extends AperiodicEventHandler {
  D() { super(new PriorityParameters(7), new AperiodicParameters(), new StorageParameters(16)); }
  public void handleAsyncEvent() { boolean[] a = new boolean[0]; }
}
@Scope("M") @DefineScope(name="PE", parent="M") class E extends AperiodicEventHandler {
  E() { super(new PriorityParameters(7), new AperiodicParameters(), new StorageParameters(15)); }
  public void handleAsyncEvent() { Box[] a = new Box[0]; }
}
