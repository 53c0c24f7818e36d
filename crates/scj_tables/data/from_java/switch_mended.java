class Pump {
  int level;

  void step(int n) {
    if (n == 1) level = 2;
    else if (n == 2) level = 3;
  }
}
