class Pump {
  int level;

  void step(int n) {
    switch (n) { case 1: level = 2; }
  }
}
