class Pump {
  int level;

  void step(int n) {
    for (int i = 0; n < 3; n++) level = i;
  }
}
