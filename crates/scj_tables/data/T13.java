class Tank {
  int level;
  static int get() { return level; }
  static Tank self() { return this; }
  int both() { return Tank.level; }
}
