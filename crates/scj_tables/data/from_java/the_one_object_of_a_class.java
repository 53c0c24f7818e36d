class Pump {
  static Pump only;

  static Pump get() { return only; }
}
