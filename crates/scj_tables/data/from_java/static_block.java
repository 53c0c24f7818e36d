class Pump {
  static int most;

  static { most = 90; }
}
