class Pump {
  int level;

  void fill(int a) { level = a; }

  void fillBoth(int a, int b) { level = a + b; }
}
