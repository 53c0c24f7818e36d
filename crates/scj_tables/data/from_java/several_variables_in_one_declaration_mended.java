class Pump {
  int low;
  int high;
}
