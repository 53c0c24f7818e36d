class Tank {
  int level;
}

class Pump {
  Tank tank;

  @RunsIn(Scope.THIS) void set(Tank t) { tank = t; }
}
