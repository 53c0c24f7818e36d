class Pump {
  int sum;
}
