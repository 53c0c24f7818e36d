@DefineScope(name="Pumping", parent="IMMORTAL")
abstract class Pumping extends Mission { }

@Scope("Pumping") @DefineScope(name="Sensing", parent="Pumping")
class Sensor extends PeriodicEventHandler {
  Sensor(int priority, int period) {
    super(new PriorityParameters(priority), new PeriodicParameters(new RelativeTime(0, 0), new RelativeTime(period, 0)), new StorageParameters(64));
  }

  public void handleAsyncEvent() { }
}
