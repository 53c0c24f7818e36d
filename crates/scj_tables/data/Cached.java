class Tank { int level; }
class Pump {
  Tank tank;
  @Scope(THIS) Tank get() { return tank; }
  int wrong() { Tank t = tank; Tank u = get(); return t.level + u.level; }
  int right() { @Scope(THIS) Tank t = tank; @Scope(THIS) Tank u = get(); return t.level + u.level; }
}
