class Pump {
  int level;

  void step(int n) {
    float share = 0.5f;
    level = (int) (n * share);
  }
}
