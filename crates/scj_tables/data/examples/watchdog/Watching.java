// A watchdog: three sensors give signs of life, and who is silent too long is told.

class Plant implements Safelet<Watching> {
  public MissionSequencer<Watching> getSequencer() { return new Once(); }
  public long immortalMemorySize() { return 128; }
  public void initializeApplication() { }
}

class Once extends MissionSequencer<Watching> {
  boolean given;

  Once() { super(new PriorityParameters(5), new StorageParameters(0)); }

  public Watching getNextMission() {
    if (given) return null;
    given = true;
    return new Watching();
  }
}

@DefineScope(name="Watching", parent="IMMORTAL")
class Watching extends Mission {
  public long missionMemorySize() { return 480; }

  // Three objects of one handler class: each has its own priority and period, and all name their memory alike.
  public void initialize() {
    Signs signs = new Signs(3);
    Services.setCeiling(signs, 16);
    new Sensor(signs, 0, 14, 10).register();
    new Sensor(signs, 1, 12, 20).register();
    new Sensor(signs, 2, 10, 40).register();
    Stop stop = new Stop(this);
    stop.register();
    new Watchdog(signs, stop).register();
  }
}

// Who gave a sign since the last look, and how many looks in a row each was silent. The arrays are made in the
// constructor, so they lie where the object does.
@Scope("Watching")
class Signs {
  boolean[] seen;
  int[] silent;

  Signs(int sensors) {
    seen = new boolean[sensors];
    silent = new int[sensors];
  }

  @RunsIn(Scope.CALLER) int sensors() { return seen.length; }

  @RunsIn(Scope.CALLER) synchronized void give(int sensor) { seen[sensor] = true; }

  // One look at one sensor: how many looks in a row it was silent.
  @RunsIn(Scope.CALLER) synchronized int look(int sensor) {
    if (seen[sensor]) silent[sensor] = 0;
    else silent[sensor] = silent[sensor] + 1;
    seen[sensor] = false;
    return silent[sensor];
  }
}
