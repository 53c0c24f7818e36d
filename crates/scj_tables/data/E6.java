class Filter {
  Object last;
  Object wrong() { return last; }
  @Scope(THIS) Object right() { return last; }
}
