@DefineScope(name="M", parent="IMMORTAL") abstract class Main extends Mission {
  @RunsIn(IMMORTAL) public void initialize() { }
  @RunsIn("M") public void cleanUp() { }
}
