class Pump {
  int level;

  void step(int n) {
    int sum = 0;
    level = n;
  }
}
