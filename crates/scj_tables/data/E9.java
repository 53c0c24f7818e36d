@DefineScope(name="M", parent="IMMORTAL") abstract class Main extends Mission { }
@Scope("M") class Tank { }
class Pump {
  void right(@Scope("M") Object o) { Tank t = (Tank) o; }
  void wrong(Object o) { Tank t = (Tank) o; }
}
