class Plant implements Safelet<Running> {
  public MissionSequencer<Running> getSequencer() { return null; }
  public long immortalMemorySize() { return 400; }
  public void initializeApplication() { }
}

@DefineScope(name="Running", parent="IMMORTAL")
class Running extends Mission {
  public long missionMemorySize() { return 400; }
  public void initialize() { }
}
