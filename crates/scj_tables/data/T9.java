class Tank {
  int level;
  int get() { return; }
  void set(int a) { level = a; return level; }
}
