@DefineScope(name="Door", parent="IMMORTAL")
abstract class Gate extends Mission { }

@Scope("Door") @DefineScope(name="Opening", parent="Door")
abstract class Opener extends AperiodicEventHandler {
  Opener() { super(new PriorityParameters(12), new AperiodicParameters(), new StorageParameters(0)); }
}
