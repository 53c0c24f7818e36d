@DefineScope(name="Pumping", parent="IMMORTAL")
abstract class Pumping extends Mission { }

@Scope(Names.PUMPING)
class Tank { }

class Names {
  static final String PUMPING = "Pumping";
}
