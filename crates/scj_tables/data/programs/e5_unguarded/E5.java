class App implements Safelet {
  public MissionSequencer getSequencer() { return new Seq(); }
  public long immortalMemorySize() { return 400; }
  public void initializeApplication() { }
}
class Seq extends MissionSequencer {
  Seq() { super(new PriorityParameters(5), new StorageParameters(0)); }
  public Mission getNextMission() { return new Main(); }
}
@DefineScope(name="M", parent="IMMORTAL") class Main extends Mission {
  public long missionMemorySize() { return 200; }
  public void initialize() { new H(new Node()).register(); }
}
class Node {
  Node next;
  static void tie(@Scope(UNKNOWN) Node a, @Scope(UNKNOWN) Node b) { a.next = b; }
}
@Scope("M") @DefineScope(name="P", parent="M") class H extends PeriodicEventHandler {
  Node list;
  H(Node a) {
    super(new PriorityParameters(5), new PeriodicParameters(new RelativeTime(0, 0), new RelativeTime(1, 0)),
        new StorageParameters(100));
    list = a;
  }
  public void handleAsyncEvent() { Node.tie(list, new Node()); }
}
