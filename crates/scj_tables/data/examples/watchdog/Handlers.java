// The sensors, the watchdog, and what stops the plant.

@Scope("Watching") @DefineScope(name="Sensing", parent="Watching")
class Sensor extends PeriodicEventHandler {
  Signs signs;
  int number;

  Sensor(Signs signs, int number, int priority, int period) {
    super(new PriorityParameters(priority), new PeriodicParameters(new RelativeTime(0, 0), new RelativeTime(period, 0)), new StorageParameters(32));
    this.signs = signs;
    this.number = number;
  }

  // A sensor that reads zero twice is broken, and gives no sign.
  public void handleAsyncEvent() {
    int[] tries = new int[2];
    for (int i = 0; i < tries.length; i++) tries[i] = Device.read(number + 1);
    if (tries[0] != 0 || tries[1] != 0) signs.give(number);
  }
}

// Looks at the sensors every 50 milliseconds, thus not faster than the slowest of them gives a sign.
@Scope("Watching") @DefineScope(name="Looking", parent="Watching")
class Watchdog extends PeriodicEventHandler {
  Signs signs;
  Stop stop;

  Watchdog(Signs signs, Stop stop) {
    super(new PriorityParameters(16), new PeriodicParameters(new RelativeTime(50, 0), new RelativeTime(50, 0)), new StorageParameters(32));
    this.signs = signs;
    this.stop = stop;
  }

  // What a look found is an object of the release; the signs stay numbers.
  public void handleAsyncEvent() {
    Finding worst = new Finding();
    for (int i = 0; i < signs.sensors(); i++) worst.note(i, signs.look(i));
    if (worst.looks == 0) return;
    Trace.print("silent", worst.sensor);
    if (worst.looks >= 3) stop.release();
  }
}

// The sensor that was silent for the most looks. An object of this class may lie anywhere.
class Finding {
  int sensor;
  int looks;

  void note(int other, int silent) {
    if (silent > looks) {
      sensor = other;
      looks = silent;
    }
  }
}

// Ends the mission. The mission lies in immortal memory, so a handler may keep it.
@Scope("Watching") @DefineScope(name="Stopping", parent="Watching")
class Stop extends AperiodicEventHandler {
  Watching mission;

  Stop(Watching mission) {
    super(new PriorityParameters(20), new AperiodicParameters(), new StorageParameters(0));
    this.mission = mission;
  }

  public void handleAsyncEvent() {
    Trace.print("stop", 1);
    mission.requestTermination();
  }
}
