class Pump {
  int name;
}
