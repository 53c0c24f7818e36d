@DefineScope(name="Plant", parent="IMMORTAL")
class Plant extends Mission implements Safelet<Plant> {
  public MissionSequencer<Plant> getSequencer() { return null; }
  public long immortalMemorySize() { return 400; }
  public void initializeApplication() { }
  public long missionMemorySize() { return 400; }
  public void initialize() { }
}
