class Flush implements Runnable { }
abstract class Gauge { abstract int read(); int last(); }
