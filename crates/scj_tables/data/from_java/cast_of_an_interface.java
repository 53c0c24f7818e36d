class Tank {
  int level;
}

class Pump {
  int level;

  void step(Runnable work) {
    Tank tank = (Tank) work;
    level = tank.level;
  }
}
