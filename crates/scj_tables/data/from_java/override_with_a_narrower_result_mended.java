class Tank { @Scope(Scope.THIS) Tank self() { return this; } }

class Cistern extends Tank {
  int size;

  int twice() {
    @Scope(Scope.THIS) Cistern same = (Cistern) self();
    return 2 * same.size;
  }
}
