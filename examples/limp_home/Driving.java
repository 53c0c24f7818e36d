// Limp home: a handler that faults reads its own faults from a shared object, and goes on with less.

class Car implements Safelet<Driving> {
  public MissionSequencer<Driving> getSequencer() { return new Once(); }
  public long immortalMemorySize() { return 128; }
  public void initializeApplication() { }
}

class Once extends MissionSequencer<Driving> {
  boolean given;

  Once() { super(new PriorityParameters(5), new StorageParameters(0)); }

  public Driving getNextMission() {
    if (given) return null;
    given = true;
    return new Driving();
  }
}

@DefineScope(name="Driving", parent="IMMORTAL")
class Driving extends Mission {
  public long missionMemorySize() { return 200; }

  public void initialize() {
    Health health = new Health();
    Services.setCeiling(health, 14);
    Engine engine = new Engine();
    Services.setCeiling(engine, 14);
    new Meter(health, engine).register();
    new Throttle(engine).register();
  }
}

// How many releases were begun, and how many came to their end. A fault ends a release at once, so it says no end: the
// difference is the number of faults.
@Scope("Driving")
class Health {
  int begun;
  int ended;
  int good;

  // The faults of the releases before this one.
  @RunsIn(Scope.CALLER) synchronized int begin() {
    int faults = begun - ended;
    begun++;
    return faults;
  }

  @RunsIn(Scope.CALLER) synchronized void end() { ended++; }

  // Two good readings in a row, and the faults are forgotten.
  @RunsIn(Scope.CALLER) synchronized void note(boolean isGood) {
    if (isGood) good++;
    else good = 0;
    if (good < 2) return;
    good = 0;
    ended = begun - 1;
  }
}

// The speed that was measured last.
@Scope("Driving")
class Engine {
  int speed;

  @RunsIn(Scope.CALLER) synchronized void set(int measured) { speed = measured; }

  @RunsIn(Scope.CALLER) synchronized int get() { return speed; }
}
