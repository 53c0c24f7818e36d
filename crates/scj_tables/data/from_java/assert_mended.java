class Pump {
  int level;

  void step(int n) {
    if (n <= 0) Trace.print("bad", n);
    level = n;
  }
}
