// A deadline that is watched: a handler may take too long, and a second one, which is more urgent, sees it and ends it.

class Rover implements Safelet<Planning> {
  public MissionSequencer<Planning> getSequencer() { return new Once(); }
  public long immortalMemorySize() { return 128; }
  public void initializeApplication() { }
}

class Once extends MissionSequencer<Planning> {
  boolean given;

  Once() { super(new PriorityParameters(5), new StorageParameters(0)); }

  public Planning getNextMission() {
    if (given) return null;
    given = true;
    return new Planning();
  }
}

@DefineScope(name="Planning", parent="IMMORTAL")
class Planning extends Mission {
  public long missionMemorySize() { return 200; }

  // The watch begins two milliseconds after the planner and has its period: its release of a number is the deadline of
  // the planner's release of that number.
  public void initialize() {
    Progress progress = new Progress();
    Services.setCeiling(progress, 18);
    new Planner(progress).register();
    new Watch(this, progress).register();
  }
}

// How many plans are done, and whether the one under way is late.
@Scope("Planning")
class Progress {
  int done;
  boolean late;

  @RunsIn(Scope.CALLER) synchronized void end() {
    done++;
    late = false;
  }

  // Whether the release of a number is over at its deadline; where it isn't, it is late.
  @RunsIn(Scope.CALLER) synchronized boolean isOver(int release) {
    if (done >= release) return true;
    late = true;
    return false;
  }

  // Not synchronized: it reads one field, which is one operation.
  @RunsIn(Scope.CALLER) boolean isLate() { return late; }
}
