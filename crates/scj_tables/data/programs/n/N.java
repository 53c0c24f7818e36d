class App implements Safelet {
  public MissionSequencer getSequencer() { return new Seq(); }
  public long immortalMemorySize() { return 400; }
  public void initializeApplication() { int[] a = new int[2]; a[1] = 7; Trace.print("s", a[0] + a[1]); }
}
class Seq extends MissionSequencer {
  Seq() { super(new PriorityParameters(5), new StorageParameters(0)); }
  public Mission getNextMission() { return null; }
}
