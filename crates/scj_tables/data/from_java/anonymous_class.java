class Pump {
  Runnable flush;

  Pump() {
    flush = new Runnable() { public void run() { } };
  }
}
