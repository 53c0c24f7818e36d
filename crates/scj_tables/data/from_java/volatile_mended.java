class Pump {
  int level;

  synchronized int get() { return level; }

  synchronized void set(int n) { level = n; }
}
