class Pump {
  int speed;
}
