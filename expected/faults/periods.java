class App implements Safelet {
  public MissionSequencer getSequencer() { return new Seq(); }
  public long immortalMemorySize() { return 1000; }
  public void initializeApplication() {  }
}
class Seq extends MissionSequencer {
  Seq() { super(new PriorityParameters(5), new StorageParameters(0)); }
  int n;
  public Mission getNextMission() { if (n > 0) return null; n = n + 1; return new Main(); }
}
@DefineScope(name="M", parent="IMMORTAL") class Main extends Mission {
  public long missionMemorySize() { return 500; }
  public void initialize() { new W0().register(); new W1().register(); new W2().register(); new W3().register(); new W4().register(); new W5().register(); new W6().register(); new W7().register(); new W8().register(); new W9().register(); new W10().register(); new W11().register();  }
}
@Scope("M") @DefineScope(name="PW0", parent="M") class W0 extends PeriodicEventHandler {
  W0() { super(new PriorityParameters(5), new PeriodicParameters(new RelativeTime(0, 500), new RelativeTime(1, 0)), new StorageParameters(8)); }
  public void handleAsyncEvent() { }
}
@Scope("M") @DefineScope(name="PW1", parent="M") class W1 extends PeriodicEventHandler {
  W1() { super(new PriorityParameters(5), new PeriodicParameters(new RelativeTime(0, 999000), new RelativeTime(1, 0)), new StorageParameters(8)); }
  public void handleAsyncEvent() { }
}
@Scope("M") @DefineScope(name="PW2", parent="M") class W2 extends PeriodicEventHandler {
  W2() { super(new PriorityParameters(5), new PeriodicParameters(new RelativeTime(0, 999001), new RelativeTime(1, 0)), new StorageParameters(8)); }
  public void handleAsyncEvent() { }
}
@Scope("M") @DefineScope(name="PW3", parent="M") class W3 extends PeriodicEventHandler {
  W3() { super(new PriorityParameters(5), new PeriodicParameters(new RelativeTime(0, 1000000), new RelativeTime(1, 0)), new StorageParameters(8)); }
  public void handleAsyncEvent() { }
}
@Scope("M") @DefineScope(name="PW4", parent="M") class W4 extends PeriodicEventHandler {
  W4() { super(new PriorityParameters(5), new PeriodicParameters(new RelativeTime(0 - 1, 0), new RelativeTime(1, 0)), new StorageParameters(8)); }
  public void handleAsyncEvent() { }
}
@Scope("M") @DefineScope(name="PW5", parent="M") class W5 extends PeriodicEventHandler {
  W5() { super(new PriorityParameters(5), new PeriodicParameters(new RelativeTime(0, 0), new RelativeTime(0, 0)), new StorageParameters(8)); }
  public void handleAsyncEvent() { }
}
@Scope("M") @DefineScope(name="PW6", parent="M") class W6 extends PeriodicEventHandler {
  W6() { super(new PriorityParameters(5), new PeriodicParameters(new RelativeTime(0, 0), new RelativeTime(0, 1000)), new StorageParameters(8)); }
  public void handleAsyncEvent() { }
}
@Scope("M") @DefineScope(name="PW7", parent="M") class W7 extends PeriodicEventHandler {
  W7() { super(new PriorityParameters(5), new PeriodicParameters(new RelativeTime(0, 0), new RelativeTime(0, 999)), new StorageParameters(8)); }
  public void handleAsyncEvent() { }
}
@Scope("M") @DefineScope(name="PW8", parent="M") class W8 extends PeriodicEventHandler {
  W8() { super(new PriorityParameters(5), new PeriodicParameters(new RelativeTime(0, 0 - 1000), new RelativeTime(1, 0)), new StorageParameters(8)); }
  public void handleAsyncEvent() { }
}
@Scope("M") @DefineScope(name="PW9", parent="M") class W9 extends PeriodicEventHandler {
  W9() { super(new PriorityParameters(5), new PeriodicParameters(new RelativeTime(0, 0), new RelativeTime(1, 999001)), new StorageParameters(0 - 1)); }
  public void handleAsyncEvent() { }
}
@Scope("M") @DefineScope(name="PW10", parent="M") class W10 extends PeriodicEventHandler {
  W10() { super(new PriorityParameters(5), new PeriodicParameters(new RelativeTime(0, 0), new RelativeTime(-5, 0)), new StorageParameters(8)); }
  public void handleAsyncEvent() { }
}
@Scope("M") @DefineScope(name="PW11", parent="M") class W11 extends PeriodicEventHandler {
  W11() { super(new PriorityParameters(5), new PeriodicParameters(new RelativeTime(0, 0), new RelativeTime(1 - 1, 7 * 0)), new StorageParameters(0 - 1)); }
  public void handleAsyncEvent() { }
}
