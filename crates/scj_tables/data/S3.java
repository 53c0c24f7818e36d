@DefineScope(name="X", parent="Y") abstract class Fill implements Runnable { }
@DefineScope(name="Y", parent="X") abstract class Drain implements Runnable { }
