// Three X-ray exposures, each a mission of its own: the filter is turned, the operator presses, the shutter closes.

class Apparatus implements Safelet<Exposure> {
  public MissionSequencer<Exposure> getSequencer() { return new Views(); }
  public long immortalMemorySize() { return 112; }
  public void initializeApplication() { }
}

// One exposure after the other, of three views.
class Views extends MissionSequencer<Exposure> {
  int taken;

  Views() { super(new PriorityParameters(5), new StorageParameters(0)); }

  public Exposure getNextMission() {
    if (taken == 3) return null;
    taken = taken + 1;
    return new Exposure(taken);
  }
}

@DefineScope(name="Exposing", parent="IMMORTAL")
class Exposure extends Mission {
  int view;

  Exposure(int view) { this.view = view; }

  public long missionMemorySize() { return 224; }

  // The filter is turned once for each view, so each exposure begins its execution later than the one before.
  public void initialize() {
    Filter filter = new Filter();
    for (int i = 0; i < view; i++) filter.turn();
    Beam beam = new Beam(20 + 40 * filter.place);
    Services.setCeiling(beam, 20);
    new Button(beam).register();
    new Meter(beam).register();
    new Shutter(this, beam).register();
  }

  public void cleanUp() { Trace.print("exposed", view); }
}

// The wheel with the filters. A class without `@Scope`: its objects may be made in any memory.
class Filter {
  int place;

  void turn() { place = place + 1; }
}

// What the handlers share: whether the beam is on, the dose so far, and the dose at which it goes off.
@Scope("Exposing")
class Beam {
  boolean on;
  int dose;
  int limit;

  Beam(int limit) { this.limit = limit; }

  @RunsIn(Scope.CALLER) synchronized void begin() { on = true; }

  @RunsIn(Scope.CALLER) synchronized void measure(int rate) {
    if (on) dose = dose + rate;
    if (dose >= limit) on = false;
  }

  @RunsIn(Scope.CALLER) synchronized boolean isOn() { return on; }

  // Ends the exposure, and says what the dose was.
  @RunsIn(Scope.CALLER) synchronized int end() {
    on = false;
    return dose;
  }
}
