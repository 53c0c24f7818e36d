@DefineScope(name="Pumping", parent="IMMORTAL")
abstract class Pumping extends Mission { }

@Scope("Pumping")
class Tank {
  int level;

  int get() { return level; }
}

@Scope("Pumping") @DefineScope(name="Sensing", parent="Pumping")
class Sensor extends AperiodicEventHandler {
  Tank tank;

  Sensor(Tank t) {
    super(new PriorityParameters(12), new AperiodicParameters(), new StorageParameters(0));
    tank = t;
  }

  public void handleAsyncEvent() {
    int sum = 0;
    for (int i = 0; i < 4; i++) sum += tank.get();
    if (tank.get() > 90) Trace.print("full", tank.get());
    else if (tank.get() < 10) Trace.print("empty", tank.get());
    while (tank.get() > sum) sum += tank.get();
  }
}
