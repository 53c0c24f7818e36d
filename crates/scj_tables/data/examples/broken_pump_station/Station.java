// A pump station: a sensor measures the level of a tank every two milliseconds, a pump drains it, and an alarm
// tells when it is too high. One mission that never ends.

class Station implements Safelet<Pumping> {
  public MissionSequencer<Pumping> getSequencer() { return new Once(); }
  public long immortalMemorySize() { return 600; }
  public void initializeApplication() { Trace.print("station", 1); }
}

class Once extends MissionSequencer<Pumping> {
  boolean given;

  Once() { super(new PriorityParameters(5), new StorageParameters(0)); }

  // Runs in immortal memory, and so does the mission's constructor.
  public Pumping getNextMission() {
    if (given) return null;
    given = true;
    return new Pumping();
  }
}

@DefineScope(name="Pumping", parent="IMMORTAL")
class Pumping extends Mission {
  public long missionMemorySize() { return 800; }

  // Runs in the mission's memory: what is made here lives until the mission ends.
  public void initialize() {
    Tank tank = new Tank(90, 40);
    Services.setCeiling(tank, 20);
    Alarm alarm = new Alarm(tank);
    alarm.register();
    Sensor sensor = new Sensor(tank, alarm);
    sensor.register();
    Pump pump = new Pump(tank);
    pump.register();
  }
}

// The shared object. Its methods run where their callers run, and only numbers go in and out.
@Scope("Pumping")
class Tank {
  int level;
  int high;
  int low;
  boolean draining;

  Tank(int high, int low) {
    this.high = high;
    this.low = low;
  }

  @RunsIn(Scope.CALLER) synchronized void measured(int value) {
    level = value;
    if (level > high) draining = true;
    if (level < low) draining = false;
  }

  @RunsIn(Scope.CALLER) synchronized boolean isDraining() { return draining; }

  @RunsIn(Scope.CALLER) synchronized int getLevel() { return level; }
}
