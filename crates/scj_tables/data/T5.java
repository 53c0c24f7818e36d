class Pump {
  static void stop() { }
  void go(Mission m, Runnable r, Pump p) {
    m.initialize();
    r.run();
    p.stop();
    p.start();
    m.requestTermination();
  }
}
