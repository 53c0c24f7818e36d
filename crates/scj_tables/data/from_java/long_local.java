class Pump {
  int level;

  void step(int n) {
    long sum = 0;
    level = n;
  }
}
