class Tank { }
class Pump {
  int level = true;
  void go(Tank t, Object o, int[] rows) {
    o = t;
    t = o;
    rows.length = 3;
  }
}
