// A mine pump: water is pumped out while there is little methane. A pump that runs in methane can blow up the mine.

class Mine implements Safelet<Drainage> {
  public MissionSequencer<Drainage> getSequencer() { return new Once(); }
  public long immortalMemorySize() { return 128; }
  public void initializeApplication() { }
}

class Once extends MissionSequencer<Drainage> {
  boolean given;

  Once() { super(new PriorityParameters(5), new StorageParameters(0)); }

  public Drainage getNextMission() {
    if (given) return null;
    given = true;
    return new Drainage();
  }
}

@DefineScope(name="Drainage", parent="IMMORTAL")
class Drainage extends Mission {
  public long missionMemorySize() { return 256; }

  // A ceiling is at least the priority of each handler that calls the object: methane 22, water 15, alarm 18.
  public void initialize() {
    Air air = new Air(150);
    Services.setCeiling(air, 22);
    Pump pump = new Pump(air);
    Services.setCeiling(pump, 22);
    Alarm alarm = new Alarm(air);
    alarm.register();
    new MethaneSensor(air, pump, alarm).register();
    new WaterSensor(pump).register();
  }

  public void cleanUp() { Trace.print("closed", 0); }
}

// What is known of the air.
@Scope("Drainage")
class Air {
  int methane;
  int most;

  Air(int most) { this.most = most; }

  // Keeps a measurement, and says whether the air became dangerous by it.
  @RunsIn(Scope.CALLER) synchronized boolean measured(int value) {
    boolean before = methane > most;
    methane = value;
    return methane > most && !before;
  }

  @RunsIn(Scope.CALLER) synchronized boolean dangerous() { return methane > most; }

  @RunsIn(Scope.CALLER) synchronized int level() { return methane; }
}

// The pump. It asks for the air itself before it runs, within its own ceiling.
@Scope("Drainage")
class Pump {
  Air air;
  boolean running;

  Pump(Air air) { this.air = air; }

  @RunsIn(Scope.CALLER) synchronized void start() {
    if (running || air.dangerous()) return;
    running = true;
    Trace.print("pump", 1);
  }

  @RunsIn(Scope.CALLER) synchronized void stop() {
    if (!running) return;
    running = false;
    Trace.print("pump", 0);
  }
}
