class Item { Item next; }
class Items {
  static void wrong(@Scope(UNKNOWN) Item a, @Scope(UNKNOWN) Item b) { a.next = b; }
  static boolean right(@Scope(UNKNOWN) Item a, @Scope(UNKNOWN) Item b) {
    if (ManagedMemory.allocInSame(a, b)) { a.next = b; return true; }
    return false;
  }
  static void undone(@Scope(UNKNOWN) Item a, @Scope(UNKNOWN) Item b) {
    if (ManagedMemory.allocInSame(a, b)) { a = b; a.next = b; }
  }
  static void otherwise(@Scope(UNKNOWN) Item a, @Scope(UNKNOWN) Item b) {
    if (ManagedMemory.allocInSame(a, b)) return; else a.next = b;
  }
}
