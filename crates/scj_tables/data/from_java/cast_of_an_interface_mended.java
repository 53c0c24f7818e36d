class Tank {
  int level;
}

class Pump {
  int level;

  void step(Object work) {
    Tank tank = (Tank) work;
    level = tank.level;
  }
}
