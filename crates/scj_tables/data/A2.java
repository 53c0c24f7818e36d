@DefineScope(name="M", parent="IMMORTAL") abstract class Main extends Mission { }
@DefineScope(name="N", parent="IMMORTAL") abstract class Other extends Mission { }
@Scope("M") class Tank { }
@Scope("N") class Cistern extends Tank { }
@Scope("M") abstract class Late extends Mission { }
