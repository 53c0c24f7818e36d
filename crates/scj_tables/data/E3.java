class Filter {
  Object last;
  @RunsIn(THIS) void keep(Object o) { last = o; }
  void take(@Scope(THIS) Object o) { last = o; }
  void step(Filter f, Object o) {
    f.keep(o);
    take(o);
    f.take(o);
    f.keep(last);
  }
}
