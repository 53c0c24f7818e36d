class Pump {
  int level;

  void step(int n) {
    n++;
    while (n < 3) n++;
  }
}
