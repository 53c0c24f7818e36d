class Pump {
  static final int MOST = 90;
  int limit;

  Pump() { limit = MOST; }
}
