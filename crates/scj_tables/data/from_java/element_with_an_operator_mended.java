class Pump {
  int[] rows;

  void step(int n) {
    rows[n] = rows[n] + 2;
    n += 2;
  }
}
