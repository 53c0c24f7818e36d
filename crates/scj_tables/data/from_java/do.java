class Pump {
  int level;

  void step(int n) {
    do n++; while (n < 3);
  }
}
