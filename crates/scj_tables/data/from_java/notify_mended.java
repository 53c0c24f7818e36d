class Pump {
  void full(AperiodicEventHandler alarm) { alarm.release(); }
}
