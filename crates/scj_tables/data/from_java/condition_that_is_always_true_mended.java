class Pump {
  int level;

  int count() {
    while (true) {
      level++;
      if (level > 9) return level;
    }
  }
}
