class Pump {
  int level;

  void step(int[] rows) {
    Object all = rows;
  }
}
