class Pump {
  int hoehe;
}
