class Pump {
  int level;

  void step(int n) {
    synchronized (this) { level = n; }
  }
}
