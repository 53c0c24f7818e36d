class Pump {
  int level;

  int count() { while (1 < 2) { level++; if (level > 9) return level; } }
}
