class Pump {
  int level;

  void step(int n) {
    long limit = 5L;
    if (n > limit) level = n;
  }
}
