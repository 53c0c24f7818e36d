@DefineScope(name="Watch", parent="IMMORTAL")
class Watch extends Mission {
  public long missionMemorySize() { return 300; }
  public void initialize() { new Probe(new Peak()).register(); }
}

@Scope("Watch") @DefineScope(name="Probing", parent="Watch")
class Probe extends PeriodicEventHandler {
  Peak peak;

  Probe(Peak p) {
    super(new PriorityParameters(9), new PeriodicParameters(new RelativeTime(0, 0), new RelativeTime(10, 0)), new StorageParameters(48));
    peak = p;
  }

  public void handleAsyncEvent() {
    Sample s = new Sample(Device.read(1));
    peak.note(s);
  }
}

class Sample {
  int value;

  Sample(int v) { value = v; }
}

class Peak {
  Sample highest;

  Peak() { highest = new Sample(0); }

  void note(Sample s) {
    if (s.value > highest.value) highest.value = s.value;
  }
}
