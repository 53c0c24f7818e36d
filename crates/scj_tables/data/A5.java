@DefineScope(name="M", parent="IMMORTAL") abstract class Main extends Mission { }
@Scope("M") class Tank {
  static Tank last;
  @Scope(THIS) static Object name;
}
