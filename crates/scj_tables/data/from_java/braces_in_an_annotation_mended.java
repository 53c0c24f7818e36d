class Pump {
  @SuppressWarnings("unchecked")
  void stop() { }
}
