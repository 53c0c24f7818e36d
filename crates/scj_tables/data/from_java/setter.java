class Tank {
  int level;
}

class Pump {
  Tank tank;

  void set(Tank t) { tank = t; }
}
