@DefineScope(name="M", parent="IMMORTAL") abstract class Main extends Mission { }
@Scope("M") class Note implements Runnable { public void run() { } }
class Pump {
  void right(Note n) { ManagedMemory.executeInAreaOf(n, n); }
  void wrong(Note n, Object o) { ManagedMemory.executeInAreaOf(o, n); }
}
