@DefineScope(name="M", parent="IMMORTAL") abstract class Main extends Mission { }
@Scope("M") class Tank { int level; @RunsIn(CALLER) int get() { return level; } void log() { } }
class Pump {
  @RunsIn("M") void right() { Tank t = new Tank(); }
  void wrong() { Tank t = new Tank(); }
}
