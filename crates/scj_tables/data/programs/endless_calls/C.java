@DefineScope(name="M", parent="IMMORTAL") class Main extends Mission {
  public long missionMemorySize() { return 200; }
  public void initialize() { new H(this).register(); }
}
@Scope("M") @DefineScope(name="P", parent="M") class H extends AperiodicEventHandler {
  Main m;
  H(Main x) { super(new PriorityParameters(7), new AperiodicParameters(), new StorageParameters(0)); m = x; }
  public void handleAsyncEvent() { go(); }
@RunsIn(CALLER) void go() { go(); } }
class Box { int v; Box(int a) { v = a; } }
