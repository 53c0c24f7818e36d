class Tank {
  int level; static int count;
  int sum(Tank t) { return t.lvl + t.count; }
}
