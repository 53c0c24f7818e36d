class Tank {
  int level;
}

class Pump {
  int level;
  Tank tank;

  void step(int n) {
    Tank first = tank;
    level = first.level;
  }
}
