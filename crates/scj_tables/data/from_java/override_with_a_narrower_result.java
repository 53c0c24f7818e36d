class Tank { @Scope(Scope.THIS) Tank self() { return this; } }

class Cistern extends Tank {
  @Scope(Scope.THIS) Cistern self() { return this; }
}
