class Pump {
  Tnk tank;
  Trace trace;
  void fill(Object o) { o = new Tnk(); o = (Tnk) o; }
  void start(Safelet<Pump> s) { }
}
