class Item {
  Item next;
}

class Items {
  static void link(@Scope(Scope.UNKNOWN) Item a, @Scope(Scope.UNKNOWN) Item b) {
    if (ManagedMemory.allocInSame(a, b)) a.next = b;
  }
}
