class App implements Safelet {
  public MissionSequencer getSequencer() { return new Seq(); }
  public long immortalMemorySize() { return 1000; }
  public void initializeApplication() { 
    Services.setCeiling(new Box(), 29); Services.setCeiling(new Box(), 28); Services.setCeiling(new Box(), 1);
    Services.setCeiling(new Box(), 0); Services.setCeiling(this, 30); Services.setCeiling(null, 5);
    Services.setCeiling(null, 30); Services.setCeiling((null), Device.read(1));
    Box b = new Box(); Services.setCeiling(b, 30); Services.setCeiling(this, Device.read(1)); Services.setCeiling((new Box()), -5);
    Services.setCeiling(new Box(), 14 * 2 + 1); int c = 40; Services.setCeiling(this, c);
   }
}
class Seq extends MissionSequencer {
  Seq() { super(new PriorityParameters(5), new StorageParameters(0)); }
  public Mission getNextMission() { return null; }
}
class Box { int v; }
