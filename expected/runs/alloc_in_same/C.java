@DefineScope(name="M", parent="IMMORTAL") class Main extends Mission {
  public long missionMemorySize() { return 200; }
  public void initialize() { new H(this).register(); }
}
@Scope("M") @DefineScope(name="P", parent="M") class H extends AperiodicEventHandler {
  Main m;
  H(Main x) { super(new PriorityParameters(7), new AperiodicParameters(), new StorageParameters(24)); m = x; }
  public void handleAsyncEvent() { Box b = new Box(1); if (ManagedMemory.allocInSame(m, b)) Trace.print("same", 1); else Trace.print("same", 0); }
}
class Box { int v; Box(int a) { v = a; } }
