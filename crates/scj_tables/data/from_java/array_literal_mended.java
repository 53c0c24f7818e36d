class Pump {
  int level;

  void step(int n) {
    int[] steps = new int[2];
    steps[0] = 1;
    steps[1] = 2;
    level = steps[n];
  }
}
