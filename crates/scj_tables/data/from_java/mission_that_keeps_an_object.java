@DefineScope(name="Pumping", parent="IMMORTAL")
class Pumping extends Mission {
  Tank tank;

  public long missionMemorySize() { return 400; }

  public void initialize() {
    tank = new Tank();
    Services.setCeiling(tank, 20);
  }
}

@Scope("Pumping")
class Tank { int level; }
