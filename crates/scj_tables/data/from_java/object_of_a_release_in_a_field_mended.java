@DefineScope(name="Pumping", parent="IMMORTAL")
class Pumping extends Mission {
  public long missionMemorySize() { return 400; }

  public void initialize() { new Sensor().register(); }
}

@Scope("Pumping") @DefineScope(name="Sensing", parent="Pumping")
class Sensor extends AperiodicEventHandler {
  Samples samples;

  Sensor() {
    super(new PriorityParameters(12), new AperiodicParameters(), new StorageParameters(64));
    samples = new Samples();
  }

  public void handleAsyncEvent() { samples.count = 0; }
}

class Samples { int count; }
