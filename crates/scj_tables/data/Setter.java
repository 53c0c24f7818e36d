class Tank { int level; }
class Pump {
  Tank tank;
  Tank[] all;
  static Pump only;
  void wrong(Tank t) { tank = t; }
  @RunsIn(THIS) void right(Tank t) { tank = t; }
  void keepWrong(Tank t) { all[0] = t; }
  void keepRight(@Scope(THIS) Tank t) { all[0] = t; }
  static void lazyWrong() { only = new Pump(); }
  @RunsIn(IMMORTAL) void lazyRight() { only = new Pump(); }
}
class Probe { @Scope(IMMORTAL) Object log; Probe(Object o) { log = o; } }
class Gauge { @Scope(IMMORTAL) Object log; Gauge(@Scope(IMMORTAL) Object o) { log = o; } }
