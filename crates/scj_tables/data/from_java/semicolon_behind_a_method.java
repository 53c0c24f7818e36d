class Pump {
  void stop() { };
}
