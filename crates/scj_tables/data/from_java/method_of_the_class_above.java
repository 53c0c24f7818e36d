class Tank {
  int level;

  void step() { level = 0; }
}

class Cistern extends Tank {
  void step() { super.step(); level++; }
}
