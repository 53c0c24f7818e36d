class App implements Safelet {
  public MissionSequencer getSequencer() { return new Seq(); }
  public long immortalMemorySize() { return 1000; }
  public void initializeApplication() { 
    int[] a = new int[0 - 1]; int[] b = new int[0]; int[] c = new int[1]; boolean[] d = new boolean[-1];
    App[] e = new App[3 - 4]; int n = -1; int[] f = new int[n]; int[] g = new int[Device.read(0)];
    int[] h = new int[-2147483648]; int[] i = new int[-1 + 1]; int[] j = new int[2 * -3];
   }
}
class Seq extends MissionSequencer {
  Seq() { super(new PriorityParameters(5), new StorageParameters(0)); }
  public Mission getNextMission() { return null; }
}
