class App implements Safelet {
  public MissionSequencer getSequencer() { return new Seq(); }
  public long immortalMemorySize() { return 400; }
  public void initializeApplication() { }
}
class Seq extends MissionSequencer {
  int n;
  Seq() { super(new PriorityParameters(5), new StorageParameters(0)); }
  public Mission getNextMission() {
    if (n > 0) return null;
    n = n + 1;
    return new Main();
  }
}
