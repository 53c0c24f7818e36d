class Pump {
  int level;

  void step(int n) {
    level = n > 3 ? 3 : n;
  }
}
