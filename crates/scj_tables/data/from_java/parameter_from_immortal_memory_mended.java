class Log { int count; }

class Site {
  static Log log;
}

class Probe {
  @Scope(Scope.IMMORTAL) Log log;

  Probe(@Scope(Scope.IMMORTAL) Log l) { log = l; }
}

class Pump {
  Probe probe() { return new Probe(Site.log); }
}
