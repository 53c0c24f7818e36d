class Tank {
  static int count;

  static void reset() { count = 0; }
}

class Pump {
  int level;

  void step(Tank tank) {
    tank.reset();
  }
}
