@DefineScope(name="Pumping", parent="IMMORTAL")
class Pumping extends Mission {
  static final int ROOM = 3072;

  public long missionMemorySize() { return ROOM; }

  public void initialize() { }
}
