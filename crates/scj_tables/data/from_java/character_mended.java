class Pump {
  int level;

  void step(int n) {
    int comma = 44;
    if (n == comma) level = n;
  }
}
