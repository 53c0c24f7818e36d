class Gauge { int read() { return 0; } }
class Clock extends Gauge { boolean read() { return true; } }
abstract class Work implements Runnable { public void run(int times) { } }
