class App implements Safelet {
  public MissionSequencer getSequencer() { return null; }
  public long immortalMemorySize() { return 64; }
  public void initializeApplication() {
    int i = 0; while (i < 2) { Trace.print("i", i); i = i + 1; }
  }
}
