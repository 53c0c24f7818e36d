class Pump {
  int level;

  void step(int n) {
    int[] steps = {1, 2};
    level = steps[n];
  }
}
