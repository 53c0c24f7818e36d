class Tank {
  int level;
}

class Pump {
  Tank[] tanks;
  int count;

  Pump() { tanks = new Tank[4]; }

  void add(Tank t) { tanks[count] = t; count++; }
}
