@DefineScope(name="Pumping", parent="IMMORTAL")
abstract class Pumping extends Mission { }

@Scope("Pumping") @DefineScope(name="Closing", parent="Pumping")
class Shutter extends OneShotEventHandler {
  Shutter() {
    super(new PriorityParameters(12), new RelativeTime(2, 0), new AperiodicParameters(), new StorageParameters(64));
  }

  public void handleAsyncEvent() { }
}
