// The first mission: the barrier goes down and up a few times, then the mission ends itself.

@DefineScope(name="Testing", parent="IMMORTAL")
class Testing extends Mission {
  int strokes;

  Testing(int strokes) { this.strokes = strokes; }

  public long missionMemorySize() { return 400; }

  public void initialize() { new Exercise(this, strokes).register(); }

  public void cleanUp() { Trace.print("tested", strokes); }
}

@Scope("Testing") @DefineScope(name="Stroke", parent="Testing")
class Exercise extends PeriodicEventHandler {
  // A mission lies in immortal memory, so it may be named from anywhere.
  Testing mission;
  Ticks ticks;
  boolean down;

  Exercise(Testing mission, int strokes) {
    super(new PriorityParameters(8), new PeriodicParameters(new RelativeTime(0, 0), new RelativeTime(500, 0)), new StorageParameters(0));
    this.mission = mission;
    ticks = new Ticks(strokes);
  }

  public void handleAsyncEvent() {
    down = !down;
    if (down) Trace.print("down", 1);
    else Trace.print("up", 1);
    // `ticks` lies in the mission's memory; its method runs here, in the release's.
    if (ticks.passed()) mission.requestTermination();
  }
}
