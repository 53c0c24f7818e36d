// The two sensors and the alarm.

// Measures methane every 30 milliseconds, and stops the pump at once where there is too much.
@Scope("Drainage") @DefineScope(name="MethaneRelease", parent="Drainage")
class MethaneSensor extends PeriodicEventHandler {
  Air air;
  Pump pump;
  Alarm alarm;

  MethaneSensor(Air air, Pump pump, Alarm alarm) {
    super(new PriorityParameters(22), new PeriodicParameters(new RelativeTime(0, 0), new RelativeTime(30, 0)), new StorageParameters(32));
    this.air = air;
    this.pump = pump;
    this.alarm = alarm;
  }

  // Two detectors are read, and the worse one counts.
  public void handleAsyncEvent() {
    Pair pair = new Pair(Device.read(1), Device.read(2));
    boolean rose = air.measured(pair.greater());
    if (air.dangerous()) pump.stop();
    if (rose) alarm.release();
  }
}

// Measures the water every 100 milliseconds, and starts and stops the pump by it.
@Scope("Drainage") @DefineScope(name="WaterRelease", parent="Drainage")
class WaterSensor extends PeriodicEventHandler {
  Pump pump;

  WaterSensor(Pump pump) {
    super(new PriorityParameters(15), new PeriodicParameters(new RelativeTime(0, 0), new RelativeTime(100, 0)), new StorageParameters(32));
    this.pump = pump;
  }

  public void handleAsyncEvent() {
    Pair pair = new Pair(Device.read(3), Device.read(4));
    if (pair.greater() > 80) pump.start();
    else if (pair.greater() < 20) pump.stop();
  }
}

@Scope("Drainage") @DefineScope(name="AlarmRelease", parent="Drainage")
class Alarm extends AperiodicEventHandler {
  Air air;

  Alarm(Air air) {
    super(new PriorityParameters(18), new AperiodicParameters(), new StorageParameters(0));
    this.air = air;
  }

  public void handleAsyncEvent() { Trace.print("methane", air.level()); }
}

// What two detectors read at once. An object of this class may lie anywhere.
class Pair {
  int one;
  int other;

  Pair(int one, int other) {
    this.one = one;
    this.other = other;
  }

  int greater() {
    if (one > other) return one;
    return other;
  }
}
