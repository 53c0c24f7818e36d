class Pump {
  int level;

  void step(int n) {
    while (true) { if (n > 3) break; n++; }
  }
}
