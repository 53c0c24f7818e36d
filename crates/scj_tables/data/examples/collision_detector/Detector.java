// The detector, and what it makes in each release.

@Scope("Detection") @DefineScope(name="FrameRelease", parent="Detection")
class Detector extends PeriodicEventHandler {
  Tracks tracks;
  VoxelMap map;

  Detector(Tracks tracks, VoxelMap map) {
    super(new PriorityParameters(20), new PeriodicParameters(new RelativeTime(0, 0), new RelativeTime(10, 0)), new StorageParameters(256));
    this.tracks = tracks;
    this.map = map;
  }

  // The frame lies in the release's private memory. The search has one of its own inside: four aircraft are six pairs,
  // and each is asked with four positions.
  public void handleAsyncEvent() {
    Frame frame = new Frame(tracks.aircraft());
    map.clear();
    for (int i = 0; i < frame.size(); i++) map.put(map.cell(frame.at(i)), i);
    Search search = new Search(frame, map, tracks);
    ManagedMemory.enterPrivateMemory(768, search);
    if (search.found > 0) Trace.print("collisions", search.found);
    for (int i = 0; i < frame.size(); i++) tracks.keep(i, frame.at(i));
  }
}

// A position, or a movement, anywhere.
class Position {
  int x;
  int y;

  Position(int x, int y) {
    this.x = x;
    this.y = y;
  }

  // The square of the distance to another position.
  int square(Position other) { return (x - other.x) * (x - other.x) + (y - other.y) * (y - other.y); }
}

// The positions of one release, read from the ports: two for each aircraft. They lie where the frame does.
class Frame {
  Position[] positions;

  Frame(int aircraft) {
    positions = new Position[aircraft];
    for (int i = 0; i < aircraft; i++) positions[i] = new Position(Device.read(2 * i), Device.read(2 * i + 1));
  }

  int size() { return positions.length; }

  @Scope(Scope.THIS) Position at(int aircraft) { return positions[aircraft]; }
}

// Asks the pairs of each cell. It lies in the release's memory, and what it makes is gone before the release goes on.
@Scope("FrameRelease") @DefineScope(name="Searching", parent="FrameRelease")
class Search implements Runnable {
  Frame frame;
  VoxelMap map;
  Tracks tracks;
  int found;

  Search(Frame frame, VoxelMap map, Tracks tracks) {
    this.frame = frame;
    this.map = map;
    this.tracks = tracks;
  }

  public void run() {
    for (int cell = 0; cell < map.first.length; cell++) {
      int one = map.first[cell];
      while (one >= 0) {
        int other = map.next[one];
        while (other >= 0) {
          if (collide(one, other)) found++;
          other = map.next[other];
        }
        one = map.next[one];
      }
    }
  }

  // Whether two aircraft are closer than 10 in this frame, or will be in the next one if they move on as they did.
  @RunsIn(Scope.CALLER) boolean collide(int one, int other) {
    Position a = copy(one);
    Position b = copy(other);
    if (a.square(b) < 100) return true;
    Position moved = tracks.moved(one, a);
    Position back = tracks.moved(other, b);
    a.x = a.x + moved.x;
    a.y = a.y + moved.y;
    b.x = b.x + back.x;
    b.y = b.y + back.y;
    return a.square(b) < 100;
  }

  // A position of the frame, copied into the caller's memory.
  @RunsIn(Scope.CALLER) Position copy(int aircraft) {
    @Scope(Scope.THIS) Position at = frame.at(aircraft);
    return new Position(at.x, at.y);
  }
}
