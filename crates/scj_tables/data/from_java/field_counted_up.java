class Tank {
  int level;
}

class Pump {
  int level;

  void step(Tank tank) {
    tank.level++;
  }
}
