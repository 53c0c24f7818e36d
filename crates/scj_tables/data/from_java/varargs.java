class Pump {
  int first(int... values) { return values[0]; }
}
