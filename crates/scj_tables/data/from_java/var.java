class Pump {
  int level;

  void step(int n) {
    var next = n + 1;
    level = next;
  }
}
