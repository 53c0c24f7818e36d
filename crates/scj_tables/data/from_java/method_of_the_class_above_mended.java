class Tank {
  int level;

  void empty() { level = 0; }

  void step() { empty(); }
}

class Cistern extends Tank {
  void step() { empty(); level++; }
}
