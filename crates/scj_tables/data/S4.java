@DefineScope(name="M", parent="IMMORTAL") abstract class Main extends Mission { }
@Scope("M") @DefineScope(name="Store", parent="M") class Tank { }
@DefineScope(name="Sub", parent="IMMORTAL") abstract class Late extends Main { }
