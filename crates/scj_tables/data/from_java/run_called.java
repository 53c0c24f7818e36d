class Pump {
  int level;

  void step(Runnable flush) {
    flush.run();
  }
}
