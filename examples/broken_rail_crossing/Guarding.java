// The second mission: a detector counts axles, a barrier follows it, and a timeout tells when it stays down too long.

@DefineScope(name="Guarding", parent="IMMORTAL")
class Guarding extends Mission {
  Section section;

  Guarding() { section = new Section(); }

  public long missionMemorySize() { return 800; }

  public void initialize() {
    Services.setCeiling(section, 20);
    Barrier barrier = new Barrier(section);
    barrier.register();
    new Detector(section, barrier).register();
    new Timeout(section).register();
  }
}

// The section of track between the detectors, shared by the three handlers.
@Scope("Guarding")
class Section {
  int axles;
  boolean closed;

  @RunsIn(Scope.CALLER) synchronized boolean counted(int value) {
    boolean changed = (axles == 0) != (value == 0);
    axles = value;
    return changed;
  }

  @RunsIn(Scope.CALLER) synchronized boolean isOccupied() { return axles > 0; }

  @RunsIn(Scope.CALLER) synchronized void move(boolean down) { closed = down; }

  @RunsIn(Scope.CALLER) synchronized boolean isClosed() { return closed; }
}

@Scope("Guarding") @DefineScope(name="Detection", parent="Guarding")
class Detector extends PeriodicEventHandler {
  Section section;
  Barrier barrier;

  Detector(Section section, Barrier barrier) {
    super(new PriorityParameters(15), new PeriodicParameters(new RelativeTime(0, 0), new RelativeTime(10, 0)), new StorageParameters(0));
    this.section = section;
    this.barrier = barrier;
  }

  public void handleAsyncEvent() {
    if (section.counted(Device.read(1) - Device.read(2))) barrier.release();
  }
}

@Scope("Guarding") @DefineScope(name="Movement", parent="Guarding")
class Barrier extends AperiodicEventHandler {
  Section section;

  Barrier(Section section) {
    super(new PriorityParameters(12), new AperiodicParameters(), new StorageParameters(0));
    this.section = section;
  }

  public void handleAsyncEvent() {
    boolean down = section.isOccupied();
    section.move(down);
    if (down) Trace.print("down", 2);
    else Trace.print("up", 2);
  }
}

@Scope("Guarding") @DefineScope(name="Waiting", parent="Guarding")
class Timeout extends PeriodicEventHandler {
  Section section;
  Ticks ticks;

  Timeout(Section section) {
    super(new PriorityParameters(6), new PeriodicParameters(new RelativeTime(0, 0), new RelativeTime(1000, 0)), new StorageParameters(0));
    this.section = section;
    ticks = new Ticks(180);
  }

  public void handleAsyncEvent() {
    if (!section.isClosed()) ticks.restart();
    else if (ticks.passed()) Trace.print("too long", ticks.count);
  }
}
