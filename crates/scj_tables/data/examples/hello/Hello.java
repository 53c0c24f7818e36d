// The smallest whole program: one mission with one handler, which says hello ten times.

// The safelet is where the program begins. Its methods run in immortal memory, which is never emptied.
class Hello implements Safelet<Greeting> {
  public MissionSequencer<Greeting> getSequencer() { return new Once(); }

  // The bytes of immortal memory, as one number. The safelet, the sequencer and the mission lie there.
  public long immortalMemorySize() { return 128; }

  public void initializeApplication() { Trace.print("begin", 0); }
}

// The sequencer gives one mission after the other, and null at the end.
class Once extends MissionSequencer<Greeting> {
  boolean given;

  Once() { super(new PriorityParameters(5), new StorageParameters(0)); }

  public Greeting getNextMission() {
    if (given) return null;
    given = true;
    return new Greeting();
  }
}

// A mission names its memory. What `initialize` makes lies there until the mission ends.
@DefineScope(name="Greeting", parent="IMMORTAL")
class Greeting extends Mission {
  public long missionMemorySize() { return 64; }

  public void initialize() { new Greeter(this).register(); }

  public void cleanUp() { Trace.print("end", 0); }
}

// A handler says with `@Scope` that it lies in its mission's memory, and names the private memory of its releases.
@Scope("Greeting") @DefineScope(name="Release", parent="Greeting")
class Greeter extends PeriodicEventHandler {
  Greeting mission;
  int said;

  // Priority 10, released from the mission's begin every 100 milliseconds, with 24 bytes for each release.
  Greeter(Greeting mission) {
    super(new PriorityParameters(10), new PeriodicParameters(new RelativeTime(0, 0), new RelativeTime(100, 0)), new StorageParameters(24));
    this.mission = mission;
  }

  // Runs at each release. What is made here is gone at the end, so only the number is kept.
  public void handleAsyncEvent() {
    Greet greet = new Greet(said + 1);
    Trace.print("hello", greet.number);
    said = greet.number;
    if (said == 10) mission.requestTermination();
  }
}

// A class without `@Scope`: its objects may be made in any memory.
class Greet {
  int number;

  Greet(int number) { this.number = number; }
}
