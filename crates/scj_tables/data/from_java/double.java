class Pump {
  int level;

  void step(int n) {
    double share = 0.5;
    level = (int) (n * share);
  }
}
