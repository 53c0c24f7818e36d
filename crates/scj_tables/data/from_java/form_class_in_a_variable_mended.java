class Pump {
  static int HIGH = 20;
}
