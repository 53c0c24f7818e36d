class Pump {
  int[] rows;
}
