class App implements Safelet {
  public MissionSequencer getSequencer() { return new Seq(); }
  public long immortalMemorySize() { return 400; }
  public void initializeApplication() { }
}
class Seq extends MissionSequencer {
  Seq() { super(new PriorityParameters(5), new StorageParameters(0)); }
  int n;
  public Mission getNextMission() { if (n > 0) return null; n = n + 1; return new Main(); }
}
@DefineScope(name="M", parent="IMMORTAL") class Main extends Mission {
  public long missionMemorySize() { return 200; }
  public void initialize() {
    new H().register();
    ManagedMemory.enterPrivateMemory(2000, new In());
  }
}
@Scope("M") @DefineScope(name="P", parent="M") class H extends AperiodicEventHandler {
  H() { super(new PriorityParameters(7), new AperiodicParameters(), new StorageParameters(48)); }
  public void handleAsyncEvent() { new Box(1); new Box(2); Trace.print("ok", 0); }
}
class Box { int v; Box(int a) { v = a; } }
@Scope("M") @DefineScope(name="Q", parent="M") class In implements Runnable {
  public void run() { Trace.print("q", 1); }
}
