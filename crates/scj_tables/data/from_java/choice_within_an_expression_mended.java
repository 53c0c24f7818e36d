class Pump {
  int level;

  void step(int n) {
    if (n > 3) level = 3;
    else level = n;
  }
}
