class App implements Safelet {
  public MissionSequencer getSequencer() { return new Seq(); }
  public long immortalMemorySize() { return 400; }
  public void initializeApplication() { }
}
class Seq extends MissionSequencer {
  Seq() { super(new PriorityParameters(5), new StorageParameters(0)); }
  int n;
  public Mission getNextMission() { if (n > 0) return null; n = n + 1; return new Main(); }
}
@DefineScope(name="M", parent="IMMORTAL") class Main extends Mission {
  public long missionMemorySize() { return 1001; }
  public void initialize() { new A().register(); new B().register(); }
}
@Scope("M") @DefineScope(name="PA", parent="M") class A extends AperiodicEventHandler {
  A() { super(new PriorityParameters(7), new AperiodicParameters(), new StorageParameters(20)); }
  public void handleAsyncEvent() {
    Outer o = new Outer();
    ManagedMemory.enterPrivateMemory(41, o);
    ManagedMemory.enterPrivateMemory(41, o);
  }
}
@DefineScope(name="QA", parent="PA") class Outer implements Runnable {
  public void run() { ManagedMemory.enterPrivateMemory(15, new Inner()); }
}
@DefineScope(name="RA", parent="QA") class Inner implements Runnable { public void run() { Trace.print("r", 1); } }
@Scope("M") @DefineScope(name="PB", parent="M") class B extends AperiodicEventHandler {
  B() { super(new PriorityParameters(7), new AperiodicParameters(), new StorageParameters(80)); }
  public void handleAsyncEvent() { int[] a = new int[8]; }
}
