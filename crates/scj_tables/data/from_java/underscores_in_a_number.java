class Pump {
  int limit = 1_000;
}
