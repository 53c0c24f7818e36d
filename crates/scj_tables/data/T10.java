class Tank {
  int level;
  int get(boolean full) { if (full) return 90; }
}
