class Tank {
  int level;
}

class Pump {
  Tank[] tanks;
  int count;
}
