class Pump {
  int level;

  void step(int n) {
    for (; n < 3; n++) level++;
  }
}
