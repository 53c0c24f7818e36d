class Pump {
  int level;

  void step(int n) {
    int comma = ',';
    if (n == comma) level = n;
  }
}
