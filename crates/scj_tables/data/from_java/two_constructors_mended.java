class Tank {
  int level;

  Tank(int start) { level = start; }

  Tank empty() { return new Tank(0); }
}
