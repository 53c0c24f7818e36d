class Pump {
  int level;

  void step(int n) {
    level = n & 255;
  }
}
