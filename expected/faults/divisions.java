class App implements Safelet {
  public MissionSequencer getSequencer() { return new Seq(); }
  public long immortalMemorySize() { return 1000; }
  public void initializeApplication() { 
    int a = 1 / 0; int b = 1 / 1; int c = 1 / (2 - 2); int d = 7 % 0; int e = 0 / 7;
    int z = 0; int f = 1 / z; int g = a / (z * 0);
    int h = 1 / (1 / 0); int i = (3 / 0) / 0; int j = Device.read(1) % (1 - 1);
    boolean k = 1 / 0 > 2 && 3 % (4 ^ 4) > 1; int l = -1 / -1; int m = 5 / -0;
    a /= 0; a %= 2; a %= 1 - 1;
   }
}
class Seq extends MissionSequencer {
  Seq() { super(new PriorityParameters(5), new StorageParameters(0)); }
  public Mission getNextMission() { return null; }
}
