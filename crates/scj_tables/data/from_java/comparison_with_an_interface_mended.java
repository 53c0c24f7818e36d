class Tank {
  int level;
}

class Pump {
  int level;

  void step(Object work, Tank tank) {
    if (work == tank) level++;
  }
}
