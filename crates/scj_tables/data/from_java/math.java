class Pump {
  int level;

  void step(int n) {
    level = Math.max(level, n);
  }
}
