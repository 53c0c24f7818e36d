class Pump {
  int level;

  void step(int n) {
    while ((n = Device.read(1)) > 0) level++;
  }
}
