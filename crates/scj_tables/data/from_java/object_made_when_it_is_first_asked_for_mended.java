class Pump {
  static Pump only;
}

class Site implements Safelet {
  public MissionSequencer getSequencer() { return null; }
  public long immortalMemorySize() { return 400; }
  public void initializeApplication() { Pump.only = new Pump(); }
}
