@DefineScope(name="M", parent="IMMORTAL") abstract class Main extends Mission { }
@Scope("M") class Tank { }
class Pump {
  @RunsIn("M") void right() { Tank[] all = new Tank[4]; }
  void wrong() { Tank[] all = new Tank[4]; }
}
