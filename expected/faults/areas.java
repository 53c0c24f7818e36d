class App implements Safelet {
  public MissionSequencer getSequencer() { return new Seq(); }
  public long immortalMemorySize() { return 1000; }
  public void initializeApplication() {  }
}
class Seq extends MissionSequencer {
  Seq() { super(new PriorityParameters(5), new StorageParameters(0)); }
  int n;
  public Mission getNextMission() { if (n > 0) return null; n = n + 1; return new Main(); }
}
@DefineScope(name="M", parent="IMMORTAL") class Main extends Mission {
  public long missionMemorySize() { return 500; }
  public void initialize() { new W0().register(); }
}
@Scope("M") @DefineScope(name="P", parent="M") class W0 extends AperiodicEventHandler {
  W0() { super(new PriorityParameters(3), new AperiodicParameters(), new StorageParameters(100)); }
  public void handleAsyncEvent() {
    ManagedMemory.enterPrivateMemory(0 - 1, new In()); ManagedMemory.enterPrivateMemory(0, new In());
    In in = new In(); ManagedMemory.enterPrivateMemory(-1, in); ManagedMemory.enterPrivateMemory(-7, (new In()));
    int n = -1; ManagedMemory.enterPrivateMemory(n, new In()); ManagedMemory.enterPrivateMemory(1 - 1, new In());
  }
}
@DefineScope(name="Q", parent="P") class In implements Runnable { public void run() { } }
