class App implements Safelet {
  public MissionSequencer getSequencer() { return new Seq(); }
  public long immortalMemorySize() { return 400; }
  public void initializeApplication() { }
}
class Seq extends MissionSequencer {
  Seq() { super(new PriorityParameters(5), new StorageParameters(0)); }
  int n;
  public Mission getNextMission() { if (n > 0) return null; n = n + 1; return new Main(); }
}
@DefineScope(name="M", parent="IMMORTAL") class Main extends Mission {
  public long missionMemorySize() { return 1001; }
  public void initialize() { new A().register(); new B().register(); new C().register(); }
}
class Box { int v; Box(int a) { v = a; } }
@Scope("M") @DefineScope(name="P", parent="M") abstract class Base extends AperiodicEventHandler {
  Base() { super(new PriorityParameters(7), new AperiodicParameters(), new StorageParameters(40)); }
  public void handleAsyncEvent() { new Box(1); }
}
@Scope("M") class A extends Base { }
@Scope("M") class B extends Base { public void handleAsyncEvent() { new Box(1); new Box(2); } }
@Scope("M") class C extends A { public void handleAsyncEvent() { } }
