@DefineScope(name="M", parent="IMMORTAL") abstract class Main extends Mission { }
@Scope("M") class Tank { }
class Pump {
  Tank tank;
  @Scope("M") Object last;
}
