@DefineScope(name="Pumping", parent="IMMORTAL")
class Pumping extends Mission {
  public long missionMemorySize() { return 3072; }

  public void initialize() { }
}
