class App implements Safelet {
  public MissionSequencer getSequencer() { return new Seq(); }
  public long immortalMemorySize() { return 1000; }
  public void initializeApplication() {  }
}
class Seq extends MissionSequencer {
  Seq() { super(new PriorityParameters(5), new StorageParameters(0)); }
  int n;
  public Mission getNextMission() { if (n > 0) return null; n = n + 1; return new Main(); }
}
@DefineScope(name="M", parent="IMMORTAL") class Main extends Mission {
  public long missionMemorySize() { return 500; }
  public void initialize() { new W0(7).register(); new W1(7).register(); new W2(7).register(); new W3(7).register(); new W4(7).register(); new W5(7).register(); new W6(7).register(); new W7(7).register(); new W8(7).register(); new W9(7).register(); new W10(7).register(); new W11(7).register();  }
}
@Scope("M") @DefineScope(name="PW0", parent="M") class W0 extends PeriodicEventHandler {
  W0(int a) { super(new PriorityParameters(a), new PeriodicParameters(new RelativeTime(0, 500), new RelativeTime(1, 0)), new StorageParameters(8)); }
  public void handleAsyncEvent() { }
}
@Scope("M") @DefineScope(name="PW1", parent="M") class W1 extends PeriodicEventHandler {
  W1(int a) { super(new PriorityParameters(5), new PeriodicParameters(new RelativeTime(a, 500), new RelativeTime(1, 0)), new StorageParameters(8)); }
  public void handleAsyncEvent() { }
}
@Scope("M") @DefineScope(name="PW2", parent="M") class W2 extends PeriodicEventHandler {
  W2(int a) { super(new PriorityParameters(5), new PeriodicParameters(new RelativeTime(0, 0), new RelativeTime(a, 1)), new StorageParameters(8)); }
  public void handleAsyncEvent() { }
}
@Scope("M") @DefineScope(name="PW3", parent="M") class W3 extends PeriodicEventHandler {
  W3(int a) { super(new PriorityParameters(5), new PeriodicParameters(new RelativeTime(0, a), new RelativeTime(1, 0)), new StorageParameters(0 - 1)); }
  public void handleAsyncEvent() { }
}
@Scope("M") @DefineScope(name="PW4", parent="M") class W4 extends PeriodicEventHandler {
  W4(int a) { super(new PriorityParameters(29), new PeriodicParameters(new RelativeTime(a, a), new RelativeTime(a, a)), new StorageParameters(a)); }
  public void handleAsyncEvent() { }
}
@Scope("M") @DefineScope(name="PW5", parent="M") class W5 extends PeriodicEventHandler {
  W5(int a) { super(new PriorityParameters(5), new PeriodicParameters(new RelativeTime(0, 0), new RelativeTime(0, a)), new StorageParameters(8)); }
  public void handleAsyncEvent() { }
}
@Scope("M") @DefineScope(name="PW6", parent="M") class W6 extends PeriodicEventHandler {
  W6(int a) { super(new PriorityParameters(5), new PeriodicParameters(new RelativeTime(0, 0), new RelativeTime(a, 0)), new StorageParameters(8)); }
  public void handleAsyncEvent() { }
}
@Scope("M") @DefineScope(name="PW7", parent="M") class W7 extends AperiodicEventHandler {
  W7(int a) { super(new PriorityParameters(a), new AperiodicParameters(), new StorageParameters(0 - 1)); }
  public void handleAsyncEvent() { }
}
@Scope("M") @DefineScope(name="PW8", parent="M") class W8 extends AperiodicEventHandler {
  W8(int a) { super(new PriorityParameters(a), new AperiodicParameters(), new StorageParameters(8)); }
  public void handleAsyncEvent() { }
}
@Scope("M") @DefineScope(name="PW9", parent="M") class W9 extends AperiodicEventHandler {
  W9(int a) { super(new PriorityParameters(30), new AperiodicParameters(), new StorageParameters(a)); }
  public void handleAsyncEvent() { }
}
@Scope("M") @DefineScope(name="PW10", parent="M") class W10 extends AperiodicEventHandler {
  W10(int a) { super(new PriorityParameters(3), new AperiodicParameters(), new StorageParameters(a)); }
  public void handleAsyncEvent() { }
}
@Scope("M") @DefineScope(name="PW11", parent="M") class W11 extends PeriodicEventHandler {
  W11(int a) { super(new PriorityParameters(5), new PeriodicParameters(new RelativeTime(-1, a), new RelativeTime(a, a)), new StorageParameters(a)); }
  public void handleAsyncEvent() { }
}
