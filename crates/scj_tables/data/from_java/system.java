class Pump {
  int level;

  void step(int n) {
    System.out.println(n);
  }
}
