// The meter, which may fault, and the throttle, which goes on.

@Scope("Driving") @DefineScope(name="Metering", parent="Driving")
class Meter extends PeriodicEventHandler {
  Health health;
  Engine engine;

  Meter(Health health, Engine engine) {
    super(new PriorityParameters(14), new PeriodicParameters(new RelativeTime(0, 0), new RelativeTime(10, 0)), new StorageParameters(0));
    this.health = health;
    this.engine = engine;
  }

  public void handleAsyncEvent() {
    int faults = health.begin();
    if (faults < 2) measure();
    else limp(faults);
    health.end();
  }

  // A broken sensor reads zero, and the division faults: the release ends here, and so says no end.
  @RunsIn(Scope.CALLER) void measure() {
    engine.set(60000 / Device.read(1));
  }

  // With less: a fixed speed, and a look whether the sensor is whole again.
  @RunsIn(Scope.CALLER) void limp(int faults) {
    Trace.print("limp", faults);
    engine.set(20);
    health.note(Device.read(1) != 0);
  }
}

@Scope("Driving") @DefineScope(name="Throttling", parent="Driving")
class Throttle extends PeriodicEventHandler {
  Engine engine;

  Throttle(Engine engine) {
    super(new PriorityParameters(10), new PeriodicParameters(new RelativeTime(5, 0), new RelativeTime(10, 0)), new StorageParameters(0));
    this.engine = engine;
  }

  public void handleAsyncEvent() { Trace.print("speed", engine.get()); }
}
