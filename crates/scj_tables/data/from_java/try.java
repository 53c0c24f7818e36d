class Pump {
  int level;

  void step(int n) {
    try { level = 90 / n; } catch (ArithmeticException e) { level = 0; }
  }
}
