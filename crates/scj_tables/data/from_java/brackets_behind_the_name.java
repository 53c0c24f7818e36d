class Pump {
  int rows[];
}
