class App implements Safelet {
  public MissionSequencer getSequencer() { return new Seq(); }
  public long immortalMemorySize() { return 1000; }
  public void initializeApplication() {
    Services.setCeiling(new Box(Sizes.one()), 29); Services.setCeiling(new Box(0).own(), 29);
    Services.setCeiling(null, Sizes.one()); Services.setCeiling(new Box(0), Sizes.one());
    Services.setCeiling(new Box(new Box(2).twice(Sizes.one())), 0);
    int a = Sizes.one() + Sizes.one() / 0; int b = 1 / (Sizes.one() * 0);
    int[] c = new int[0 - 1 - 0 * 1]; int[] d = new int[-1 - Sizes.one()]; int e = Device.read(300 + Sizes.one());
    boolean f = Sizes.one() > 0 && Device.read(300) > Sizes.one();
  }
}
class Seq extends MissionSequencer {
  Seq() { super(new PriorityParameters(5), new StorageParameters(0)); }
  int n;
  public Mission getNextMission() { if (n > 0) return null; n = n + 1; return new Main(); }
}
@DefineScope(name="M", parent="IMMORTAL") class Main extends Mission {
  public long missionMemorySize() { return 500; }
  public void initialize() { new W0().register(); new W1().register(); new W2().register(); new W3().register(); }
}
@Scope("M") @DefineScope(name="P0", parent="M") class W0 extends AperiodicEventHandler {
  W0() { super(new PriorityParameters(29), new AperiodicParameters(), new StorageParameters(Sizes.one())); }
  public void handleAsyncEvent() {
    ManagedMemory.enterPrivateMemory(0 - 1, new In(Sizes.one())); ManagedMemory.enterPrivateMemory(Sizes.one(), new In(-1));
    ManagedMemory.enterPrivateMemory(-1, new In(new Box(1).twice(Device.read(1)))); ManagedMemory.enterPrivateMemory(-Sizes.one(), new In(1));
  }
}
@Scope("M") @DefineScope(name="P1", parent="M") class W1 extends PeriodicEventHandler {
  W1() { super(new PriorityParameters(28), new PeriodicParameters(new RelativeTime(Sizes.one(), 500), new RelativeTime(1, 0)), new StorageParameters(Sizes.one())); }
  public void handleAsyncEvent() { }
}
@Scope("M") @DefineScope(name="P2", parent="M") class W2 extends PeriodicEventHandler {
  W2() { super(new PriorityParameters(1), new PeriodicParameters(new RelativeTime(Sizes.one(), 0), new RelativeTime(0 - 1, Sizes.one())), new StorageParameters(-1)); }
  public void handleAsyncEvent() { }
}
@Scope("M") @DefineScope(name="P3", parent="M") class W3 extends PeriodicEventHandler {
  W3() { super(new PriorityParameters(1), new PeriodicParameters(new RelativeTime(Sizes.one(), 0), new RelativeTime(1, 0)), new StorageParameters(-1)); }
  public void handleAsyncEvent() { }
}
@Scope("M") @DefineScope(name="P4", parent="M") class W4 extends AperiodicEventHandler {
  W4() { super(new PriorityParameters(Sizes.one()), new AperiodicParameters(), new StorageParameters(-1)); }
  public void handleAsyncEvent() { }
}
@DefineScope(name="Q", parent="P0") class In implements Runnable { In(int n) { } public void run() { } }
class Box {
  int v;
  Box(int n) { v = n; }
  @Scope(THIS) Box own() { return this; }
  int twice(int n) { return n + v; }
}
class Sizes { static int one() { return Device.read(300 - 45); } static int two() { return one() / 0; } }
