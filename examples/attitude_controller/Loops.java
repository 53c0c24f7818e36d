// The two loops and what they compute with.

@Scope("Flying") @DefineScope(name="FastRelease", parent="Flying")
class Fast extends PeriodicEventHandler {
  Attitude attitude;
  Filter filter;

  Fast(Attitude attitude, Filter filter) {
    super(new PriorityParameters(20), new PeriodicParameters(new RelativeTime(0, 0), new RelativeTime(5, 0)), new StorageParameters(120));
    this.attitude = attitude;
    this.filter = filter;
  }

  public void handleAsyncEvent() {
    Vector measured = new Vector(Device.read(1), Device.read(2), Device.read(3));
    Vector still = new Vector(Device.read(4), Device.read(4), Device.read(4));
    Vector rates = measured.minus(still);
    attitude.follow(rates);
    Trace.print("rudder", filter.step(rates));
  }
}

// A filter runs where its caller runs, and may keep numbers of a vector, but not the vector.
abstract class Filter {
  abstract int step(Vector rates);
}

@Scope("Flying")
class Smoother extends Filter {
  int[] last;
  int next;

  Smoother(int length) { last = new int[length]; }

  // Without the annotation the method would run in the class's scope.
  @RunsIn(Scope.CALLER) int step(Vector rates) {
    last[next] = rates.x - rates.y;
    next = (next + 1) % last.length;
    int sum = 0;
    for (int i = 0; i < last.length; i++) sum += last[i];
    return sum / last.length;
  }
}

@Scope("Flying") @DefineScope(name="SlowRelease", parent="Flying")
class Slow extends PeriodicEventHandler {
  Attitude attitude;

  Slow(Attitude attitude) {
    super(new PriorityParameters(7), new PeriodicParameters(new RelativeTime(50, 0), new RelativeTime(100, 0)), new StorageParameters(32));
    this.attitude = attitude;
  }

  // The long computation has a private memory inside the release's, emptied before the next step.
  public void handleAsyncEvent() {
    Trim trim = new Trim(attitude);
    ManagedMemory.enterPrivateMemory(144, trim);
    attitude.trim(trim.error);
  }
}

@Scope("SlowRelease") @DefineScope(name="Trimming", parent="SlowRelease")
class Trim implements Runnable {
  Attitude attitude;
  int error;

  Trim(Attitude attitude) { this.attitude = attitude; }

  public void run() {
    int[] stars = new int[16];
    for (int i = 0; i < stars.length; i++) stars[i] = Device.read(5);
    int sum = 0;
    for (int i = 0; i < stars.length; i++) sum += stars[i];
    error = attitude.turning() - sum / stars.length;
  }
}
