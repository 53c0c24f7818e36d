class Tank {
  int level;

  Tank() { } Tank(int start) { level = start; }
}
