@DefineScope(name="M", parent="IMMORTAL") abstract class Main extends Mission { }
@Scope("M") @DefineScope(name="Release", parent="Mission1")
abstract class Sensor extends AperiodicEventHandler {
  Sensor() { super(new PriorityParameters(1), new AperiodicParameters(), new StorageParameters(0)); }
}
