class Pump {
  Object last;
}
