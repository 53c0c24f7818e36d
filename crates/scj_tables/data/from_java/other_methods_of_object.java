class Tank {
  int level;

  boolean same(Tank other) { return this.equals(other); }
}
