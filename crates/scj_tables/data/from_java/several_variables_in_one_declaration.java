class Pump {
  int low, high;
}
