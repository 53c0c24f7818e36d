// A boiler is watched: what is measured in a release goes with it, and what is kept comes from a pool.

class Boiler implements Safelet<Watch> {
  public MissionSequencer<Watch> getSequencer() { return new Watches(); }
  public long immortalMemorySize() { return 56; }
  public void initializeApplication() { }
}

class Watches extends MissionSequencer<Watch> {
  boolean isOver;

  Watches() { super(new PriorityParameters(5), new StorageParameters(0)); }

  public Watch getNextMission() {
    if (isOver) return null;
    isOver = true;
    return new Watch();
  }
}

@DefineScope(name="Watching", parent="IMMORTAL")
class Watch extends Mission {
  public long missionMemorySize() { return 272; }

  public void initialize() {
    Log log = new Log(2);
    new Sampler(log).register();
    new Clear(log).register();
  }
}

// The alarms that are kept, in the mission's memory: as many as the pool has readings.
@Scope("Watching")
class Log {
  Chain kept;
  Pool pool;

  Log(int most) {
    kept = new Chain();
    pool = new Pool(most);
  }

  // Keeps a value, and says whether there was room.
  @RunsIn(Scope.CALLER) boolean keep(int value) {
    @Scope(Scope.THIS) Reading reading = pool.take();
    if (reading == null) return false;
    reading.value = value;
    return Chains.push(kept, reading);
  }
}

// Every millisecond: sums up three samples, which lie in the memory of the release and come from a pool of its own, and
// keeps the sum if it is high.
@Scope("Watching") @DefineScope(name="Sampling", parent="Watching")
class Sampler extends PeriodicEventHandler {
  Log log;

  Sampler(Log log) {
    super(new PriorityParameters(12), new PeriodicParameters(new RelativeTime(0, 0), new RelativeTime(1, 0)), new StorageParameters(168));
    this.log = log;
  }

  public void handleAsyncEvent() {
    Pool room = new Pool(3);
    Chain samples = new Chain();
    for (int i = 0; i < 3; i++) {
      Reading sample = room.take();
      sample.value = Device.read(1);
      Chains.push(samples, sample);
    }
    int sum = Chains.sum(samples);
    if (sum > 60) {
      if (log.keep(sum)) Trace.print("kept", sum); else Trace.print("full", sum);
    }
    // A sample of this release can't become one of the mission's: it would be gone with the release.
    Reading sample = samples.pop();
    if (log.pool.give(sample)) Trace.print("wrong", sum);
    if (!room.give(sample)) Trace.print("lost", sum);
  }
}

// The operator has read the alarms: their readings go back into the pool.
@Scope("Watching") @DefineScope(name="Clearing", parent="Watching")
class Clear extends AperiodicEventHandler {
  Log log;

  Clear(Log log) {
    super(new PriorityParameters(10), new AperiodicParameters(), new StorageParameters(0));
    this.log = log;
  }

  public void handleAsyncEvent() {
    Trace.print("alarms", Chains.sum(log.kept));
    @Scope(Scope.THIS) Reading reading = log.kept.pop();
    while (reading != null) {
      if (log.pool.give(reading)) Trace.print("cleared", reading.value);
      reading = log.kept.pop();
    }
  }
}
