@DefineScope(name="M", parent="IMMORTAL") abstract class Main extends Mission { }
@DefineScope(name="Release", parent="M")
abstract class Sensor extends AperiodicEventHandler {
  Sensor() { super(new PriorityParameters(1), new AperiodicParameters(), new StorageParameters(0)); }
}
@DefineScope(name="Boot", parent="IMMORTAL") abstract class Boot implements Runnable { }
