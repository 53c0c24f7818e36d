class Tank {
  int level;
}

class Pump {
  Tank tank;

  @Scope(Scope.THIS) Tank get() { return tank; }
}
