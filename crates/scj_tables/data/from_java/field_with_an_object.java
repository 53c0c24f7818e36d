class Tank {
  int level;
}

class Pump {
  Tank tank = new Tank();
}
