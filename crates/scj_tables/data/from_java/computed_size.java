@DefineScope(name="Pumping", parent="IMMORTAL")
class Pumping extends Mission {
  public long missionMemorySize() { return 3 * 1024; }

  public void initialize() { }
}
