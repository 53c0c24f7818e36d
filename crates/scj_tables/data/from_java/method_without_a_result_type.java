class Pump {
  int level;

  stop() { level = 0; }
}
