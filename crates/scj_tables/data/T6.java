class Tank { int level; Tank(int start) { level = start; } int fill(int a) { return a; } }
class Cistern extends Tank { }
class Pump { void go() { Tank t = new Tank(); t.fill(true); Trace.print(1, 2); } }
