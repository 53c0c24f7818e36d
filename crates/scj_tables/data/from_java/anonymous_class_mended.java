class Pump {
  Runnable flush;

  Pump() {
    flush = new Flush();
  }
}

class Flush implements Runnable {
  public void run() { }
}
