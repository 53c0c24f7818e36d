class Pump {
  int level;

  void step(int n) {
    if (n != 0) level = 90 / n;
    else level = 0;
  }
}
