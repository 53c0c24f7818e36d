class Item {
  Item next;
  int value;
}

class Items {
  static int sum(@Scope(Scope.UNKNOWN) Item first) {
    int s = 0;
    @Scope(Scope.UNKNOWN) Item i = first;
    while (i != null) { s += i.value; i = i.next; }
    return s;
  }
}

class Shelf {
  Item kept;

  int total() { return Items.sum(kept); }
}
