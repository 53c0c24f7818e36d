class Tank {
  static int count;
}

class Pump {
  int level;

  void step(Tank tank) {
    level = tank.count;
  }
}
