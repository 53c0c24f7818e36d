class Pump {
  int level;
  void fill(int steps) {
    for (int i = 0; i < steps; i++) level = lvl + i;
    level = i;
  }
}
