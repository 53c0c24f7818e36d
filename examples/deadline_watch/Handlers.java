// The planner, and the watch over its deadline.

@Scope("Planning") @DefineScope(name="Searching", parent="Planning")
class Planner extends PeriodicEventHandler {
  Progress progress;

  Planner(Progress progress) {
    super(new PriorityParameters(10), new PeriodicParameters(new RelativeTime(0, 0), new RelativeTime(5, 0)), new StorageParameters(0));
    this.progress = progress;
  }

  // As many steps as there are obstacles; with what was found by then where it is late.
  public void handleAsyncEvent() {
    int obstacles = Device.read(1);
    int steps = 0;
    while (steps < obstacles && !progress.isLate()) steps++;
    if (steps < obstacles) Trace.print("part", steps);
    else Trace.print("plan", steps);
    progress.end();
  }
}

@Scope("Planning") @DefineScope(name="Watching", parent="Planning")
class Watch extends PeriodicEventHandler {
  Planning mission;
  Progress progress;
  int looks;
  int late;

  Watch(Planning mission, Progress progress) {
    super(new PriorityParameters(18), new PeriodicParameters(new RelativeTime(2, 0), new RelativeTime(5, 0)), new StorageParameters(0));
    this.mission = mission;
    this.progress = progress;
  }

  // The third deadline that is missed ends the mission.
  public void handleAsyncEvent() {
    looks++;
    if (progress.isOver(looks)) return;
    late++;
    Trace.print("late", looks);
    if (late == 3) mission.requestTermination();
  }
}
