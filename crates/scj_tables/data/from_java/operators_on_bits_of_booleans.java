class Pump {
  boolean open;

  void step(boolean full) {
    open = open & full; open = open | full; open = open ^ full;
  }
}
