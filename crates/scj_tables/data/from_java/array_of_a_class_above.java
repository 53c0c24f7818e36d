class Part { }

class Tank extends Part { }

class Pump {
  int level;

  void step(int n) {
    Part[] parts = new Tank[4];
  }
}
