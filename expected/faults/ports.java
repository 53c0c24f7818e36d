class App implements Safelet {
  public MissionSequencer getSequencer() { return new Seq(); }
  public long immortalMemorySize() { return 1000; }
  public void initializeApplication() { 
    Device.read(0); Device.read(255); Device.read(256); Device.read(-1); Device.read(0 - 1);
    Device.read(128 * 2); Device.read(256 - 1); Device.read((300)); Device.read(256 & 255);
    int p = 256; Device.read(p); Device.read(Device.read(1)); Device.read(~0); Device.read(-(-7));
    Device.read(1 << 8); Device.read(1 << 7); Device.read(256 / 2); Device.read(256 % 257);
    Device.read(-2147483648); Device.read(2147483647 + 1); Device.read(2147483647 + 1 - 2147483647 - 1);
   }
}
class Seq extends MissionSequencer {
  Seq() { super(new PriorityParameters(5), new StorageParameters(0)); }
  public Mission getNextMission() { return null; }
}
