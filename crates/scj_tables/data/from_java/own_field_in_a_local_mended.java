class Tank {
  int level;
}

class Pump {
  int level;
  Tank tank;

  void step(int n) {
    @Scope(Scope.THIS) Tank first = tank;
    level = first.level;
  }
}
