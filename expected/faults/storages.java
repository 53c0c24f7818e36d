class App implements Safelet {
  public MissionSequencer getSequencer() { return new Seq(); }
  public long immortalMemorySize() { return 1000; }
  public void initializeApplication() {  }
}
class Seq extends MissionSequencer {
  Seq() { super(new PriorityParameters(5), new StorageParameters(0)); }
  int n;
  public Mission getNextMission() { if (n > 0) return null; n = n + 1; return new Main(); }
}
@DefineScope(name="M", parent="IMMORTAL") class Main extends Mission {
  public long missionMemorySize() { return 500; }
  public void initialize() { new W0().register(); new W1().register(); new W2().register(); new W3().register(); new W4().register();  }
}
@Scope("M") @DefineScope(name="PW0", parent="M") class W0 extends PeriodicEventHandler {
  W0() { super(new PriorityParameters(5), new PeriodicParameters(new RelativeTime(0, 0), new RelativeTime(1, 0)), new StorageParameters(0 - 1)); }
  public void handleAsyncEvent() { }
}
@Scope("M") @DefineScope(name="PW1", parent="M") class W1 extends PeriodicEventHandler {
  W1() { super(new PriorityParameters(5), new PeriodicParameters(new RelativeTime(0, 0), new RelativeTime(1, 0)), new StorageParameters(0)); }
  public void handleAsyncEvent() { }
}
@Scope("M") @DefineScope(name="PW2", parent="M") class W2 extends AperiodicEventHandler {
  W2() { super(new PriorityParameters(5), new AperiodicParameters(), new StorageParameters(-1)); }
  public void handleAsyncEvent() { }
}
@Scope("M") @DefineScope(name="PW3", parent="M") class W3 extends AperiodicEventHandler {
  W3() { super(new PriorityParameters(5), new AperiodicParameters(), new StorageParameters(1 - 1)); }
  public void handleAsyncEvent() { }
}
@Scope("M") @DefineScope(name="PW4", parent="M") class W4 extends PeriodicEventHandler {
  W4() { super(new PriorityParameters(28), new PeriodicParameters(new RelativeTime(0, 999000), new RelativeTime(0, 1000)), new StorageParameters(-2147483648)); }
  public void handleAsyncEvent() { }
}
