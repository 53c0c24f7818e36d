// A range finder whose loop is late: where many echoes come, a release takes longer than its period.

class Vehicle implements Safelet<Ranging> {
  public MissionSequencer<Ranging> getSequencer() { return new Once(); }
  public long immortalMemorySize() { return 128; }
  public void initializeApplication() { }
}

class Once extends MissionSequencer<Ranging> {
  boolean given;

  Once() { super(new PriorityParameters(5), new StorageParameters(0)); }

  public Ranging getNextMission() {
    if (given) return null;
    given = true;
    return new Ranging();
  }
}

@DefineScope(name="Ranging", parent="IMMORTAL")
class Ranging extends Mission {
  public long missionMemorySize() { return 144; }

  public void initialize() {
    Range range = new Range();
    Services.setCeiling(range, 20);
    new Finder(range).register();
    new Brake(range).register();
  }
}

// What the last sweep found, and how many sweeps came since the last look.
@Scope("Ranging")
class Range {
  int nearest;
  int sweeps;

  // Copies the number: the sweep is gone when the caller's release ends.
  @RunsIn(Scope.CALLER) synchronized void found(Sweep sweep) {
    nearest = sweep.nearest;
    sweeps++;
  }

  @RunsIn(Scope.CALLER) synchronized int fresh() {
    int fresh = sweeps;
    sweeps = 0;
    return fresh;
  }

  @RunsIn(Scope.CALLER) synchronized int nearest() { return nearest; }
}
