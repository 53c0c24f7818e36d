class Pump {
  int level;
  boolean on(int[] rows, boolean full) {
    level = rows[full];
    return level == full;
  }
}
