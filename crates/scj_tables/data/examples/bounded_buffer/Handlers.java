// The producer and the consumer.

// Makes an item every 20 milliseconds. Where the buffer is full, the item is lost with the release's memory.
@Scope("Passing") @DefineScope(name="Producing", parent="Passing")
class Producer extends PeriodicEventHandler {
  Buffer buffer;
  int made;

  Producer(Buffer buffer) {
    super(new PriorityParameters(14), new PeriodicParameters(new RelativeTime(0, 0), new RelativeTime(20, 0)), new StorageParameters(32));
    this.buffer = buffer;
  }

  public void handleAsyncEvent() {
    made++;
    Item item = new Item(made, Device.read(1));
    if (!buffer.put(item)) Trace.print("full", made);
  }
}

// Empties the buffer every 50 milliseconds, and ends the mission after a hundred items.
@Scope("Passing") @DefineScope(name="Consuming", parent="Passing")
class Consumer extends PeriodicEventHandler {
  Buffer buffer;
  Passing mission;
  int taken;

  Consumer(Buffer buffer, Passing mission) {
    super(new PriorityParameters(10), new PeriodicParameters(new RelativeTime(50, 0), new RelativeTime(50, 0)), new StorageParameters(32));
    this.buffer = buffer;
    this.mission = mission;
  }

  public void handleAsyncEvent() {
    Item item = new Item(0, 0);
    while (buffer.take(item)) {
      taken++;
      Trace.print("item", item.value);
    }
    if (taken >= 100) mission.requestTermination();
  }
}
