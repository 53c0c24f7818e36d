class Tank { }
class Gate { }
class Pump { void go(Tank t, int n) { Object o = (Gate) t; o = (Tank) n; } }
