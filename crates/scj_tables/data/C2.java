class Pump extends Device2 implements Startable { }
