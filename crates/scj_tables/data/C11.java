class Tank {
  synchronized int level;
  static synchronized void reset() { }
  Tnk() { }
}
class Work implements Runnable { public synchronized void run() { } }
