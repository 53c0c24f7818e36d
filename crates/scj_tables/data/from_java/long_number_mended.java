class Pump {
  int level;

  void step(int n) {
    int limit = 5;
    if (n > limit) level = n;
  }
}
