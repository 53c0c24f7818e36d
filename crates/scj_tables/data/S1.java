@DefineScope(name="M", parent="IMMORTAL")
abstract class First extends Mission { }
@DefineScope(name="M", parent="IMMORTAL")
abstract class Second extends Mission { }
