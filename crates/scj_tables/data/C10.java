abstract class Pump extends Services { }
abstract class Phase extends Mission implements Runnable { }
