class Pump {
  void fill(int amount) {
    for (int amount = 0; amount < 3; amount++) { }
  }
}
