class Pump {
  int level;

  void step(int n) {
    for (int i = 0, j = n; i < j; i++) level++;
  }
}
