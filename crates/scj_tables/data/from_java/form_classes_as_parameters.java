@DefineScope(name="Pumping", parent="IMMORTAL")
abstract class Pumping extends Mission { }

@Scope("Pumping") @DefineScope(name="Sensing", parent="Pumping")
class Sensor extends PeriodicEventHandler {
  Sensor(PriorityParameters priority, PeriodicParameters release) {
    super(priority, release, new StorageParameters(64));
  }

  public void handleAsyncEvent() { }
}
