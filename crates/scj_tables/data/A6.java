@DefineScope(name="M", parent="IMMORTAL") abstract class Main extends Mission { }
class Filter { int step(Object o) { return 0; } }
@Scope("M") class Mean extends Filter { int step(Object o) { return 1; } }
