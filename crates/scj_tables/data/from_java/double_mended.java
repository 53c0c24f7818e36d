class Pump {
  int level;

  void step(int n) {
    int thousandths = 500;
    level = n * thousandths / 1000;
  }
}
