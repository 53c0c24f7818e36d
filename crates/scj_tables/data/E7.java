@DefineScope(name="M", parent="IMMORTAL") abstract class Main extends Mission { }
@DefineScope(name="Step", parent="M") class Step implements Runnable { public void run() { } }
class Pump {
  @RunsIn("M") void right(Step s) { ManagedMemory.enterPrivateMemory(64, s); }
  void wrong(Step s) { ManagedMemory.enterPrivateMemory(64, s); }
}
