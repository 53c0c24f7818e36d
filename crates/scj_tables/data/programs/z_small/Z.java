class App implements Safelet {
  public MissionSequencer getSequencer() { return null; }
  public long immortalMemorySize() { return 15; }
  public void initializeApplication() {
    Trace.print("z", 1 / 0);
  }
}
