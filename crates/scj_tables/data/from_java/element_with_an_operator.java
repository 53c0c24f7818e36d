class Pump {
  int[] rows;

  void step(int n) {
    rows[n] += 2;
  }
}
