class Pump {
  int level;

  void next() { level++; }

  void step(int n) {
    int i = 0;
    while (i < n) {
      i = level;
      next();
    }
  }
}
