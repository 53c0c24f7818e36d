class Pump {
  void stop() { }
}
