class Pump {
  int level;

  void step(int n) {
    while (n < 3) {
      level++;
      n++;
    }
  }
}
