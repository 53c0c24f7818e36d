@DefineScope(name="Pumping", parent="IMMORTAL")
abstract class Pumping extends Mission { }

@Scope("Pumping")
class Tank { }

@Scope("Pumping") class Pump { Tank tank; }
