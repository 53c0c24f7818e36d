class App implements Safelet<Main> {
  static Item shared;
  public MissionSequencer getSequencer() { return new Seq(); }
  public long immortalMemorySize() { return 200; }
  public void initializeApplication() { shared = new Item(7, null); }
}
class Seq extends MissionSequencer<Main> {
  boolean over;
  Seq() { super(new PriorityParameters(5), new StorageParameters(0)); }
  public Main getNextMission() { if (over) return null; over = true; return new Main(); }
}
@DefineScope(name="M", parent="IMMORTAL") class Main extends Mission {
  public long missionMemorySize() { return 600; }
  public void initialize() { new Hand(new Item(1, null), new Box()).register(); }
}
class Item {
  Item next; int value; @Scope(IMMORTAL) Item mark; Item[] row;
  Item(int v, Item n) { value = v; next = n; row = new Item[1]; mark = App.shared; }
  boolean tie(@Scope(UNKNOWN) Item o) {
    if (ManagedMemory.allocInSame(this, o)) { next = o; o.next = this; return true; }
    return false;
  }
  static boolean into(@Scope(UNKNOWN) Item o, @Scope(UNKNOWN) Item p) {
    @Scope(UNKNOWN) Item old = o.next;
    if (ManagedMemory.allocInSame(o, p)) { o.next = p; if (ManagedMemory.allocInSame(p, old)) { p.next = old; } else p.next = null; }
    return old == o.row[0] || old == p.mark;
  }
  @Scope(THIS) Item last() { @Scope(THIS) Item at = this; while (at.next != null) at = at.next; return at; }
  int first(@Scope(THIS) Item o, Item p) { if (ManagedMemory.allocInSame(o, p)) { o.next = p; } return o.value; }
}
class Items {
  static int sum(@Scope(UNKNOWN) Item from) { int s = 0; @Scope(UNKNOWN) Item i = from; while (i != null) { s += i.value; i = i.next; } return s; }
  static boolean link(@Scope(UNKNOWN) Item a, @Scope(UNKNOWN) Item b, boolean twice) {
    @Scope(UNKNOWN) Item c = b;
    if (ManagedMemory.allocInSame(a, b)) { c = a; while (twice) { b.next = a; twice = false; } a.next = b; return c.tie(b); }
    else { c = a.last(); return sum(c) > 9; }
  }
}
@Scope("M") class Box {
  Item kept; @Scope(IMMORTAL) Item sign;
  @RunsIn(CALLER) boolean keep(@Scope(UNKNOWN) Item i) { if (ManagedMemory.allocInSame(i, this)) { kept = i; this.kept = i; return true; } return false; }
}
@Scope("M") @DefineScope(name="S", parent="M") class Hand extends AperiodicEventHandler {
  Item kept; Box box;
  Hand(Item k, Box b) { super(new PriorityParameters(7), new AperiodicParameters(), new StorageParameters(200)); kept = k; box = b; }
  public void handleAsyncEvent() {
    Item own = new Item(10, null); @Scope("M") Item other = kept; @Scope(UNKNOWN) Object any = own;
    if (Items.link(own, other, false) || box.keep(own)) Trace.print("wrong", own.first(own.last(), new Item(2, own)));
    @Scope(UNKNOWN) Item same = (Item) any; any = box;
    if (ManagedMemory.allocInSame(same, other)) { same.next = other; }
    Trace.print("sum", Items.sum(App.shared) + Items.sum(kept));
  }
}
