class Pump {
  int limit = 1000;
}
