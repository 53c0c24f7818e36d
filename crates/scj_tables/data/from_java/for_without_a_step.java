class Pump {
  int level;

  void step(int n) {
    for (int i = 0; i < n;) i = i + 2;
  }
}
