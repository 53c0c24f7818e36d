@DefineScope(name="Pumping", parent="IMMORTAL")
abstract class Pumping extends Mission { }

@Scope("Pumping") @DefineScope(name="Closing", parent="Pumping")
class Shutter extends PeriodicEventHandler {
  Shutter() {
    super(new PriorityParameters(12), new PeriodicParameters(new RelativeTime(2, 0), new RelativeTime(0, 0)), new StorageParameters(64));
  }

  public void handleAsyncEvent() { }
}
