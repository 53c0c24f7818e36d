class Cruise extends Mission {
  public long missionMemorySize() { return 100; }
  public void initialize() { }
}
