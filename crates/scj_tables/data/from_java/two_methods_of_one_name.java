class Pump {
  int level;

  void fill(int a) { level = a; } void fill(int a, int b) { level = a + b; }
}
