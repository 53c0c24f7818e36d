// A rail crossing: first a mission that exercises the barrier, then one that guards the crossing.

class Crossing implements Safelet {
  public MissionSequencer getSequencer() { return new Phases(); }
  public long immortalMemorySize() { return 1000; }
  public void initializeApplication() { }
}

class Phases extends MissionSequencer {
  int phase;

  Phases() { super(new PriorityParameters(3), new StorageParameters(0)); }

  public Mission getNextMission() {
    phase++;
    if (phase == 1) return new Testing(4);
    if (phase == 2) return new Guarding();
    return null;
  }
}

// An object of this class may lie in the memory of either mission.
class Ticks {
  int count;
  int most;

  Ticks(int most) { this.most = most; }

  boolean passed() {
    count++;
    return count >= most;
  }

  void restart() { count = 0; }
}
