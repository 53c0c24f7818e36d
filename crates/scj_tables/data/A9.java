@DefineScope(name="M", parent="IMMORTAL") abstract class Main extends Mission { }
@Scope("M") class Tank { }
class Pump {
  void go(@Scope("M") int level, @Scope(IMMORTAL) Tank t) { }
}
