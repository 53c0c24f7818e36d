class Second implements Safelet {
  public MissionSequencer getSequencer() { return null; }
  public long immortalMemorySize() { return 64; }
  public void initializeApplication() { }
}
