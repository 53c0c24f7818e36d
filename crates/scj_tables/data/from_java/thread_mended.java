@DefineScope(name="Pumping", parent="IMMORTAL")
abstract class Pumping extends Mission { }

@Scope("Pumping") @DefineScope(name="Working", parent="Pumping")
class Worker extends PeriodicEventHandler {
  Worker() {
    super(new PriorityParameters(9), new PeriodicParameters(new RelativeTime(0, 0), new RelativeTime(10, 0)), new StorageParameters(64));
  }

  public void handleAsyncEvent() { }
}
