class Pump {
  int level;

  void step(int n) {
    assert n > 0;
    level = n;
  }
}
