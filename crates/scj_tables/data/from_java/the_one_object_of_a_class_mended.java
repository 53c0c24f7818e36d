class Pump {
  static Pump only;

  @Scope(Scope.IMMORTAL) static Pump get() { return only; }
}
