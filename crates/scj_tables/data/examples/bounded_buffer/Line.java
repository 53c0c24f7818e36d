// A bounded buffer between a producer and a consumer, which run at periods of their own.

class Line implements Safelet<Passing> {
  public MissionSequencer<Passing> getSequencer() { return new Once(); }
  public long immortalMemorySize() { return 128; }
  public void initializeApplication() { }
}

class Once extends MissionSequencer<Passing> {
  boolean given;

  Once() { super(new PriorityParameters(5), new StorageParameters(0)); }

  public Passing getNextMission() {
    if (given) return null;
    given = true;
    return new Passing();
  }
}

@DefineScope(name="Passing", parent="IMMORTAL")
class Passing extends Mission {
  public long missionMemorySize() { return 384; }

  public void initialize() {
    Buffer buffer = new Buffer(4);
    Services.setCeiling(buffer, 14);
    new Producer(buffer).register();
    new Consumer(buffer, this).register();
  }
}

// The items of the buffer are made once, with it, and lie in the mission's memory. What goes in and comes out is
// copied: an item of a release is gone when the release ends.
@Scope("Passing")
class Buffer {
  Item[] items;
  int first;
  int count;

  Buffer(int size) {
    items = new Item[size];
    for (int i = 0; i < size; i++) items[i] = new Item(0, 0);
  }

  // Whether there was room for the caller's item.
  @RunsIn(Scope.CALLER) synchronized boolean put(Item item) {
    if (count == items.length) return false;
    items[(first + count) % items.length].become(item.number, item.value);
    count++;
    return true;
  }

  // Whether there was an item for the caller's to become.
  @RunsIn(Scope.CALLER) synchronized boolean take(Item item) {
    if (count == 0) return false;
    item.become(items[first].number, items[first].value);
    first = (first + 1) % items.length;
    count--;
    return true;
  }
}

// An object of this class may lie anywhere.
class Item {
  int number;
  int value;

  Item(int number, int value) { become(number, value); }

  void become(int number, int value) {
    this.number = number;
    this.value = value;
  }
}
