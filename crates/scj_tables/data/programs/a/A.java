class App implements Safelet {
  public MissionSequencer getSequencer() { return null; }
  public long immortalMemorySize() { return 64; }
  public void initializeApplication() {
    int m = -2147483648; Trace.print("a", m / -1);
    Trace.print("b", m % -1); Trace.print("c", 1 << 33);
  }
}
