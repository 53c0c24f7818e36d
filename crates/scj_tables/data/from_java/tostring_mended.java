class Tank {
  int level;

  void show() { Trace.print("tank", level); }
}
