class Pump {
  static Pump only;

  static void make() { if (only == null) only = new Pump(); }
}
