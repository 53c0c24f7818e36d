class Pump {
  int level;

  void step(int n) {
    n++;
  }
}
