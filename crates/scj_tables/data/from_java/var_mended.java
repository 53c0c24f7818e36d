class Pump {
  int level;

  void step(int n) {
    int next = n + 1;
    level = next;
  }
}
