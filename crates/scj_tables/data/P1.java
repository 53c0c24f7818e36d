class C {
  void m() {
    synchronized (this) { }
  }
}
