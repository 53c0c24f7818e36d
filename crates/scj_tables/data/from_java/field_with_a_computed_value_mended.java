class Pump {
  int room = 65536;
}
