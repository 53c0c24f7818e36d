class Tank {
  int level;
}

class Pump {
  Tank tank;

  Tank get() { return tank; }
}
