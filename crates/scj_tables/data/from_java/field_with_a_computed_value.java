class Pump {
  int room = 64 * 1024;
}
