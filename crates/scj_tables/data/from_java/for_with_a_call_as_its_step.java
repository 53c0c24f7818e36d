class Pump {
  int level;

  void next() { level++; }

  void step(int n) {
    for (int i = 0; i < n; next()) i = level;
  }
}
