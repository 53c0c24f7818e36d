class App implements Safelet {
  public MissionSequencer getSequencer() { return new Seq(); }
  public long immortalMemorySize() { return 1000; }
  public void initializeApplication() { Trace.print("a", Device.read(0)); }
}
class Seq extends MissionSequencer {
  Seq() { super(new PriorityParameters(35), new StorageParameters(0 - 1)); }
  public Mission getNextMission() { return null; }
}
