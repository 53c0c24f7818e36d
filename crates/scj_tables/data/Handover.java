@DefineScope(name="M", parent="IMMORTAL") abstract class Main extends Mission {
  public void initialize() { new Sensor(this); new Meter(this); new Probe(Site.log); new Gauge(Site.log); }
}
class Site { static Object log; }
class Sensor { Sensor(Mission m) { } }
class Meter { Meter(Main m) { } }
class Probe { Probe(Object o) { } }
class Gauge { @Scope(IMMORTAL) Object log; Gauge(@Scope(IMMORTAL) Object o) { log = o; } }
