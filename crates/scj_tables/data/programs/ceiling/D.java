@DefineScope(name="M", parent="IMMORTAL") class Main extends Mission {
  public long missionMemorySize() { return 300; }
  public void initialize() { Gate g = new Gate(); Services.setCeiling(g, 9); new W(5, 0, g).register(); new W(9, 8000, g).register(); }
}
@Scope("M") class Gate { int n; @RunsIn(CALLER) synchronized void hit(int a) { n = n + a; Trace.print("n", n); } }
@Scope("M") @DefineScope(name="P", parent="M") class W extends PeriodicEventHandler {
  int p; Gate g;
  W(int a, int s, Gate x) { super(new PriorityParameters(a), new PeriodicParameters(new RelativeTime(0, s), new RelativeTime(1, 0)), new StorageParameters(0)); p = a; g = x; }
  public void handleAsyncEvent() { g.hit(p); }
}
