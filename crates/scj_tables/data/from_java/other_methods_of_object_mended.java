class Tank {
  int level;

  boolean same(Tank other) { return level == other.level; }

  boolean is(Tank other) { return this == other; }
}
