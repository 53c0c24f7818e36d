class Pump {
  static int most = 90;
  static int least;
}

class Site implements Safelet {
  public MissionSequencer getSequencer() { return null; }
  public long immortalMemorySize() { return 400; }
  public void initializeApplication() { Pump.least = 10; }
}
