class Pump {
  int level;

  void step(int n) {
    String name = "inlet";
    Trace.print(name, n);
  }
}
