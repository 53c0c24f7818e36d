class Tank {
  int level;
}

class Pump {
  int level;

  void step(Tank tank) {
    tank.level = tank.level + 1;
    level++;
  }
}
