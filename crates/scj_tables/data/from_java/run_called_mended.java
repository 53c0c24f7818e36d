@DefineScope(name="Pumping", parent="IMMORTAL")
abstract class Pumping extends Mission { }

class Pump {
  void step(Flush flush) {
    flush.run();
  }

  @RunsIn("Pumping") void enter(Rinse rinse) {
    ManagedMemory.enterPrivateMemory(64, rinse);
  }
}

class Flush implements Runnable {
  public void run() { }
}

@DefineScope(name="Rinsing", parent="Pumping")
class Rinse implements Runnable {
  public void run() { }
}
