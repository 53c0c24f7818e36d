class Pump {
  int level;

  void step(int n) {
    Trace.print("n", n);
  }
}
