@DefineScope(name="M", parent="IMMORTAL") abstract class Main extends Mission { }
@Scope("M") class Tank { static Tank wrong() { return new Tank(); } }
class Pump { @RunsIn("M") void right() { Tank t = new Tank(); } }
