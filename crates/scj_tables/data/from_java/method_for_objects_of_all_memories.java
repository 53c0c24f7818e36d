class Item {
  Item next;
  int value;
}

class Items {
  static int sum(Item first) {
    int s = 0;
    Item i = first;
    while (i != null) { s += i.value; i = i.next; }
    return s;
  }
}

class Shelf {
  Item kept;

  int total() { return Items.sum(kept); }
}
