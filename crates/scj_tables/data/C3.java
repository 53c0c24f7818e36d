class Valve extends Gate { }
class Gate extends Valve { }
class Lock extends Gate { }
