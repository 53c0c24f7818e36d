@DefineScope(name="Door", parent="IMMORTAL")
abstract class Gate extends Mission { }

@Scope("Doors") @DefineScope(name="Opening", parent="Door")
abstract class Opener extends AperiodicEventHandler {
  Opener() { super(new PriorityParameters(12), new AperiodicParameters(), new StorageParameters(0)); }
}
