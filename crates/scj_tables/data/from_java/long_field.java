class Pump {
  long sum;
}
