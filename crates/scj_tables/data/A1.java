class Pump {
  @Scope("Tank") Object tank;
  @Scope(CALLER) Object last;
  static void stop(@Scope(THIS) Object o) { }
}
@Scope(THIS) class Gate { }
