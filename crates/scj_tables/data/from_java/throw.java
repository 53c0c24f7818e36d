class Pump {
  int level;

  void step(int n) {
    if (n < 0) throw new RuntimeException();
    level = n;
  }
}
