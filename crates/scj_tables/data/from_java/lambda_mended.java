class Pump {
  Runnable flush;

  Pump() {
    flush = new Flush(this);
  }

  void stop() { }
}

class Flush implements Runnable {
  Pump pump;

  Flush(Pump p) { pump = p; }

  public void run() { pump.stop(); }
}
