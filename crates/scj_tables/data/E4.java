class Filter {
  Object last;
  void step(Object o) {
    Object here = o;
    here = last;
    @Scope(THIS) Object own = last;
  }
}
