@DefineScope(name="M", parent="IMMORTAL") abstract class Main extends Mission { }
@DefineScope(name="Release", parent="M") abstract class Step implements Runnable { }
@Scope("M") class Tank {
  @Scope("Release") Object sample;
  @Scope(IMMORTAL) Object name;
}
