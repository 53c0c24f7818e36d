class Part { }

class Tank extends Part { }

class Pump {
  int level;

  void step(Part part) {
    if (part instanceof Tank) level++;
  }
}
