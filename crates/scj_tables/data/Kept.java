class Store {
  @Scope(UNKNOWN) Object last;
  @Scope(UNKNOWN) Object get() { return last; }
  boolean has(@Scope(UNKNOWN) Object o) { @Scope(UNKNOWN) Object own = o; return own == last; }
}
