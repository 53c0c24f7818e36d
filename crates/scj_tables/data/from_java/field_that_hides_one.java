class Tank {
  int level;
}

class Cistern extends Tank { int level; }
