class Tank {
  int level;
}

class Pump {
  Tank tank;

  Pump() { tank = new Tank(); }
}
