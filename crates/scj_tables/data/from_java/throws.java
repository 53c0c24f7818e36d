class Pump {
  void stop() throws Exception { }
}
