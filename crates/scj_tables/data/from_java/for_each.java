class Pump {
  int level;
  int[] rows;

  void step(int n) {
    for (int row : rows) level += row;
  }
}
