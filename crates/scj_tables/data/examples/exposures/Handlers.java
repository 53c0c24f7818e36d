// The operator's button, the meter of the dose, and the shutter.

// Released by a fire of the plan: the operator presses.
@Scope("Exposing") @DefineScope(name="Pressing", parent="Exposing")
class Button extends AperiodicEventHandler {
  Beam beam;

  Button(Beam beam) {
    super(new PriorityParameters(18), new AperiodicParameters(), new StorageParameters(0));
    this.beam = beam;
  }

  public void handleAsyncEvent() {
    Trace.print("pressed", 1);
    beam.begin();
  }
}

// Every quarter of a millisecond. It turns the beam off where the dose is reached.
@Scope("Exposing") @DefineScope(name="Metering", parent="Exposing")
class Meter extends PeriodicEventHandler {
  Beam beam;

  Meter(Beam beam) {
    super(new PriorityParameters(12), new PeriodicParameters(new RelativeTime(0, 0), new RelativeTime(0, 250000)), new StorageParameters(0));
    this.beam = beam;
  }

  public void handleAsyncEvent() { if (beam.isOn()) beam.measure(Device.read(1)); }
}

// One-shot, since its period is 0: released once in each exposure, two milliseconds after its beginning. It ends the
// exposure, whatever the dose is by then.
@Scope("Exposing") @DefineScope(name="Closing", parent="Exposing")
class Shutter extends PeriodicEventHandler {
  Exposure exposure;
  Beam beam;

  Shutter(Exposure exposure, Beam beam) {
    super(new PriorityParameters(20), new PeriodicParameters(new RelativeTime(2, 0), new RelativeTime(0, 0)), new StorageParameters(0));
    this.exposure = exposure;
    this.beam = beam;
  }

  public void handleAsyncEvent() {
    if (beam.isOn()) Trace.print("closed", 1);
    Trace.print("dose", beam.end());
    exposure.requestTermination();
  }
}
