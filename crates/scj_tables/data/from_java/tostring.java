class Tank {
  int level;

  public String toString() { return "tank"; }
}
