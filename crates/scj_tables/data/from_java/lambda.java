class Pump {
  Runnable flush;

  Pump() {
    flush = () -> stop();
  }

  void stop() { }
}
