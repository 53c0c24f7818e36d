class Tank { int level; }
class Pump {
  Tank tank;
  static Pump only;
  Tank wrong() { return tank; }
  @Scope(THIS) Tank right() { return tank; }
  static Pump oneWrong() { return only; }
  @Scope(IMMORTAL) static Pump oneRight() { return only; }
}
