class Part {
  boolean holds() { return false; }
}

class Tank extends Part {
  boolean holds() { return true; }
}

class Pump {
  int level;

  void step(Part part) {
    if (part.holds()) level++;
  }
}
