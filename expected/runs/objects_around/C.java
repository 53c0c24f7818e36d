@DefineScope(name="M", parent="IMMORTAL") class Main extends Mission {
  public long missionMemorySize() { return 112; }
  public void initialize() { new H().register(); }
}
@Scope("M") @DefineScope(name="P", parent="M") class H extends AperiodicEventHandler {
  Box kept;
  H() { super(new PriorityParameters(7), new AperiodicParameters(), new StorageParameters(72)); kept = new Box(1); }
  public void handleAsyncEvent() {
    ManagedMemory.enterPrivateMemory(48, new In(this, new Out(this)));
    ManagedMemory.enterPrivateMemory(48, new Zero());
    Trace.print("kept", kept.v);
  }
}
@Scope("P") @DefineScope(name="Q", parent="P") class In implements Runnable {
  H h; Out o;
  In(H a, Out b) { h = a; o = b; }
  public void run() {
    Box a = new Box(5);
    ManagedMemory.executeInAreaOf(h, o);
    Box b = new Box(6);
    Trace.print("in", a.v * 10 + b.v + h.kept.v * 100);
  }
}
@Scope("P") class Out implements Runnable {
  H h;
  Out(H a) { h = a; }
  @RunsIn("M") public void run() { h.kept = new Box(h.kept.v + 1); }
}
@DefineScope(name="R", parent="P") class Zero implements Runnable {
  public void run() { int[] z = new int[4]; Trace.print("zero", z[0] + z[1] + z[2] + z[3]); }
}
class Box { int v; Box(int a) { v = a; } }
