class Pump {
  int level;

  void step(int n) {
    if (n > level) level = n;
  }
}
