// An attitude controller: a fast loop follows the gyroscope, a slow one trims it, and both share the attitude.

class Flight implements Safelet {
  public MissionSequencer getSequencer() { return new Flights(); }
  public long immortalMemorySize() { return 600; }
  public void initializeApplication() { }
}

class Flights extends MissionSequencer {
  Flying flying;

  Flights() { super(new PriorityParameters(2), new StorageParameters(0)); }

  public Mission getNextMission() {
    if (flying != null) return null;
    flying = new Flying();
    return flying;
  }
}

@DefineScope(name="Flying", parent="IMMORTAL")
class Flying extends Mission {
  public long missionMemorySize() { return 1200; }

  public void initialize() {
    Attitude attitude = new Attitude();
    Services.setCeiling(attitude, 24);
    Fast fast = new Fast(attitude, new Smoother(8));
    fast.register();
    Slow slow = new Slow(attitude);
    slow.register();
  }
}

// What both loops know. A vector is copied into it: a reference to one would name a private memory.
@Scope("Flying")
class Attitude {
  Vector rates;
  int bias;

  Attitude() { rates = new Vector(0, 0, 0); }

  @RunsIn(Scope.CALLER) synchronized void follow(@Scope(Scope.CALLER) Vector measured) {
    rates.x = measured.x - bias;
    rates.y = measured.y - bias;
    rates.z = measured.z - bias;
  }

  @RunsIn(Scope.CALLER) synchronized void trim(int error) { bias = bias + error / 4; }

  @RunsIn(Scope.CALLER) synchronized int turning() { return rates.x + rates.y + rates.z; }
}

// Three numbers, anywhere.
class Vector {
  int x;
  int y;
  int z;

  Vector(int x, int y, int z) {
    this.x = x;
    this.y = y;
    this.z = z;
  }

  // A new vector, made where the caller runs.
  Vector minus(Vector other) { return new Vector(x - other.x, y - other.y, z - other.z); }
}
