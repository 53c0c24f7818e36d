class Pump {
  int level;

  void step(int n) {
    n = Device.read(1);
    while (n > 0) {
      level++;
      n = Device.read(1);
    }
  }
}
