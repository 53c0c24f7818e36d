@DefineScope(name="Pumping", parent="IMMORTAL")
abstract class Pumping extends Mission { }

@Scope("Pumping")
class Tank {
  static Tank make() { return new Tank(); }
}
