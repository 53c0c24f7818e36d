class App implements Safelet {
  static int total = 3;
  static int twice(int a) { return a + a; }
  public MissionSequencer getSequencer() { return null; }
  public long immortalMemorySize() { return 400; }
  public void initializeApplication() {
    int[] row = new int[4];
    total = total + row.length;
    Trace.print("total", twice(total));
    Base made = new Sub();
    Sub sub = (Sub) made;
    Trace.print("sum", -sub.a + sub.b);
    int blank;
    Trace.print("blank", blank);
    boolean any = total > 9 || blank == 0;
    if (any && sub.a > 2) Trace.print("both", 1); else Trace.print("one", 2);
    Base bare = new Base();
    sub = (Sub) bare;
  }
}
class Base { int a = 2; }
class Sub extends Base { int b = 5; }
