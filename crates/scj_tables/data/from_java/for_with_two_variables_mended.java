class Pump {
  int level;

  void step(int n) {
    int j = n;
    for (int i = 0; i < j; i++) level++;
  }
}
