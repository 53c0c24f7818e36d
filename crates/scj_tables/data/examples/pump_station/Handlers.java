// The three handlers. Each lies in the mission's memory, and each release has a private memory of its own.

@Scope("Pumping") @DefineScope(name="Sensing", parent="Pumping")
class Sensor extends PeriodicEventHandler {
  Tank tank;
  Alarm alarm;

  Sensor(Tank tank, Alarm alarm) {
    super(new PriorityParameters(12), new PeriodicParameters(new RelativeTime(0, 0), new RelativeTime(2, 0)), new StorageParameters(200));
    this.tank = tank;
    this.alarm = alarm;
  }

  public void handleAsyncEvent() {
    Samples samples = new Samples(3);
    for (int i = 0; i < 3; i++) samples.add(Device.read(1));
    int level = samples.middle();
    tank.measured(level);
    if (level > 95) alarm.release();
  }
}

@Scope("Pumping") @DefineScope(name="Alarming", parent="Pumping")
class Alarm extends AperiodicEventHandler {
  Tank tank;

  Alarm(Tank tank) {
    super(new PriorityParameters(18), new AperiodicParameters(), new StorageParameters(0));
    this.tank = tank;
  }

  public void handleAsyncEvent() { Trace.print("alarm", tank.getLevel()); }
}

@Scope("Pumping") @DefineScope(name="Draining", parent="Pumping")
class Pump extends PeriodicEventHandler {
  Tank tank;
  int runs;

  Pump(Tank tank) {
    super(new PriorityParameters(10), new PeriodicParameters(new RelativeTime(0, 5000), new RelativeTime(2, 500000)), new StorageParameters(0));
    this.tank = tank;
  }

  public void handleAsyncEvent() {
    if (tank.isDraining()) runs++;
    Trace.print("pump", runs);
  }
}

// Samples may be made anywhere: the class has no scope of its own. The array lies where its object does.
class Samples {
  int[] values;
  int count;

  Samples(int most) { values = new int[most]; }

  void add(int value) {
    if (count < values.length) {
      values[count] = value;
      count++;
    }
  }

  // The middle of three values.
  int middle() {
    int a = values[0];
    int b = values[1];
    int c = values[2];
    if (a > b) {
      int d = a;
      a = b;
      b = d;
    }
    if (c < a) return a;
    if (c < b) return c;
    return b;
  }
}
