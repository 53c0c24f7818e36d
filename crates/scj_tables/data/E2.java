@DefineScope(name="M", parent="IMMORTAL") abstract class Main extends Mission { }
@Scope("M") class Tank { int level; @RunsIn(CALLER) int get() { return level; } void log() { } }
class Pump {
  int go(Tank t) {
    t.log();
    return t.get();
  }
}
