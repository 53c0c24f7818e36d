class Pump {
  int höhe;
}
