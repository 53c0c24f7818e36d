class Pump {
  int level;

  void step(int[] rows) {
    int[] all = rows;
  }
}
