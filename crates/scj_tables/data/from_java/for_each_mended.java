class Pump {
  int level;
  int[] rows;

  void step(int n) {
    for (int i = 0; i < rows.length; i++) level += rows[i];
  }
}
