class Pump {
  int level;

  void step(int n) {
    Trace.print("level\t", n);
  }
}
