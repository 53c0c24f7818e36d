class Pump {
  int level;

  void step(int n) {
    PriorityParameters high = new PriorityParameters(20);
  }
}
