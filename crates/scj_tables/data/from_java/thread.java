@DefineScope(name="Pumping", parent="IMMORTAL")
abstract class Pumping extends Mission { }

class Worker extends Thread { public void run() { } }
