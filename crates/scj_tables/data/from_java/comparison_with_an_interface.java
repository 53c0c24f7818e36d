class Tank {
  int level;
}

class Pump {
  int level;

  void step(Runnable work, Tank tank) {
    if (work == tank) level++;
  }
}
