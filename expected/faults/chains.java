class App implements Safelet {
  public MissionSequencer getSequencer() { return new Seq(); }
  public long immortalMemorySize() { return 1000; }
  public void initializeApplication() {  }
}
class Seq extends MissionSequencer {
  Seq() { super(new PriorityParameters(5), new StorageParameters(0)); }
  int n;
  public Mission getNextMission() { if (n > 0) return null; n = n + 1; return new Main(); }
}
@DefineScope(name="M", parent="IMMORTAL") class Main extends Mission {
  public long missionMemorySize() { return 500; }
  public void initialize() { new V().register(); }
}
@Scope("M") @DefineScope(name="PW", parent="M") class W extends AperiodicEventHandler {
  W(int p) { super(new PriorityParameters(40), new AperiodicParameters(), new StorageParameters(8)); }
  public void handleAsyncEvent() { }
}
class V extends W { V() { super(40); } }
