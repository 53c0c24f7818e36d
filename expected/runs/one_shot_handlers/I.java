@DefineScope(name="M", parent="IMMORTAL") class Main extends Mission {
  public long missionMemorySize() { return 500; }
  public void initialize() { new W(5, 0).register(); new W(9, 15000).register(); }
}
@Scope("M") @DefineScope(name="P", parent="M") class W extends PeriodicEventHandler {
  int p;
  W(int a, int s) { super(new PriorityParameters(a), new PeriodicParameters(new RelativeTime(0, s), new RelativeTime(0, 0)), new StorageParameters(24)); p = a; }
  public void handleAsyncEvent() { ManagedMemory.enterPrivateMemory(24, new In(p)); }
}
@DefineScope(name="Q", parent="P") class In implements Runnable { int q; In(int a) { q = a; }
  public void run() { Box b = new Box(q); Trace.print("q", b.v); } }
class Box { int v; Box(int a) { v = a; } }
