@DefineScope(name="Pumping", parent="IMMORTAL")
abstract class Pumping extends Mission { }

@Scope("Pumping") @DefineScope(name="Sensing", parent="Pumping")
class Sensor extends PeriodicEventHandler {
  Sensor() {
    super(new PriorityParameters(12), new PeriodicParameters(new RelativeTime(0, 0), new RelativeTime(10, 0)), new StorageParameters(64));
  }

  public void handleAsyncEvent() { }
}
