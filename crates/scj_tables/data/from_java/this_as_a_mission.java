@DefineScope(name="Pumping", parent="IMMORTAL")
class Pumping extends Mission {
  public long missionMemorySize() { return 400; }

  public void initialize() { new Sensor(this).register(); }
}

@Scope("Pumping") @DefineScope(name="Sensing", parent="Pumping")
class Sensor extends AperiodicEventHandler {
  Mission mission;

  Sensor(Mission m) {
    super(new PriorityParameters(12), new AperiodicParameters(), new StorageParameters(0));
    mission = m;
  }

  public void handleAsyncEvent() { mission.requestTermination(); }
}
