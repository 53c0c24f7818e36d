class Pump {
  short speed;
}
