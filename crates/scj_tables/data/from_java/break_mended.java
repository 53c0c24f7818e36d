class Pump {
  int level;

  void step(int n) {
    while (n <= 3) n++;
    if (level > 9) return;
  }
}
