class Pump {
  int level;

  void stop() { level = 0; }
}
