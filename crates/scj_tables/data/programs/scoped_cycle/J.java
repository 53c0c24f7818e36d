@DefineScope(name="M", parent="IMMORTAL") class Main extends Mission {
  public long missionMemorySize() { return 200; }
  public void initialize() { new H().register(); }
}
@Scope("M") class X implements Runnable { A a;
  public void run() { ManagedMemory.enterPrivateMemory(16, a); } }
@Scope("M") @DefineScope(name="Q", parent="M") class A implements Runnable { X x;
  public void run() { Trace.print("in", 1); ManagedMemory.executeInAreaOf(this, x); } }
@Scope("M") @DefineScope(name="P", parent="M") class H extends AperiodicEventHandler { X x;
  H() { super(new PriorityParameters(7), new AperiodicParameters(), new StorageParameters(16)); x = new X(); x.a = new A(); x.a.x = x; }
  public void handleAsyncEvent() { ManagedMemory.executeInAreaOf(this, x); } }
