abstract class Gauge { }
class Pump { void go() { Object o = new Gauge(); o = new Runnable(); o = new Trace(); } }
