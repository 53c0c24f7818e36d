class App implements Safelet {
  public MissionSequencer getSequencer() { return new Seq(); }
  public long immortalMemorySize() { return 400; }
  public void initializeApplication() { }
}
class Seq extends MissionSequencer {
  Seq() { super(new PriorityParameters(5), new StorageParameters(0)); }
  public Mission getNextMission() { return new Main(); }
}
@DefineScope(name="M", parent="IMMORTAL") class Main extends Mission {
  public long missionMemorySize() { return 200; }
  public void initialize() { new H(new Pump()).register(); }
}
class Pump { T last; }
@Scope("M") @DefineScope(name="P", parent="M") class H extends PeriodicEventHandler {
  Pump p;
  H(Pump a) {
    super(new PriorityParameters(5), new PeriodicParameters(new RelativeTime(0, 0), new RelativeTime(1, 0)),
        new StorageParameters(100));
    p = a;
  }
  public void handleAsyncEvent() { p.last = new T(); }
}
@Scope("P") class T { }
