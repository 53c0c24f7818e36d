// The finder and the brake.

// Sweeps every millisecond. The time that a release takes grows with the echoes, and may grow beyond the period.
@Scope("Ranging") @DefineScope(name="Sweeping", parent="Ranging")
class Finder extends PeriodicEventHandler {
  Range range;

  Finder(Range range) {
    super(new PriorityParameters(10), new PeriodicParameters(new RelativeTime(0, 0), new RelativeTime(1, 0)), new StorageParameters(32));
    this.range = range;
  }

  // Port 1 tells how many echoes came, and port 2 gives the distance of each.
  public void handleAsyncEvent() {
    Sweep sweep = new Sweep(Device.read(1));
    for (int i = 0; i < sweep.echoes; i++) sweep.hear(Device.read(2));
    range.found(sweep);
  }
}

// Looks at the range every two milliseconds, and is the more urgent one.
@Scope("Ranging") @DefineScope(name="Braking", parent="Ranging")
class Brake extends PeriodicEventHandler {
  Range range;

  Brake(Range range) {
    super(new PriorityParameters(20), new PeriodicParameters(new RelativeTime(1, 500000), new RelativeTime(2, 0)), new StorageParameters(0));
    this.range = range;
  }

  // Where no sweep came since the last look, the range is an old one.
  public void handleAsyncEvent() {
    Trace.print("sweeps", range.fresh());
    if (range.nearest() < 100) Trace.print("brake", range.nearest());
  }
}

// One sweep. An object of this class may lie anywhere.
class Sweep {
  int echoes;
  int nearest = 1000;

  Sweep(int echoes) { this.echoes = echoes; }

  void hear(int distance) {
    if (distance < nearest) nearest = distance;
  }
}
