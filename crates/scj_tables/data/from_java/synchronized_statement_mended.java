class Pump {
  int level;

  synchronized void set(int n) { level = n; }

  void step(int n) { set(n); }
}
