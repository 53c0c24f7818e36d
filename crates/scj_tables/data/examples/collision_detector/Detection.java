// The core of a collision detector: every 10 milliseconds a frame of positions comes in, and aircraft that are too
// close to each other are told. Two of them are asked for their distance only where they are in one cell of the map.

class Airspace implements Safelet<Detection> {
  public MissionSequencer<Detection> getSequencer() { return new Once(); }
  public long immortalMemorySize() { return 128; }
  public void initializeApplication() { }
}

class Once extends MissionSequencer<Detection> {
  boolean given;

  Once() { super(new PriorityParameters(5), new StorageParameters(0)); }

  public Detection getNextMission() {
    if (given) return null;
    given = true;
    return new Detection();
  }
}

@DefineScope(name="Detection", parent="IMMORTAL")
class Detection extends Mission {
  public long missionMemorySize() { return 1024; }

  public void initialize() {
    Tracks tracks = new Tracks(4);
    VoxelMap map = new VoxelMap(8, 100, 4);
    new Detector(tracks, map).register();
  }
}

// Where each aircraft was at the last release. Positions of a frame are copied into it, number by number.
@Scope("Detection")
class Tracks {
  Position[] last;
  boolean known;

  Tracks(int aircraft) {
    last = new Position[aircraft];
    for (int i = 0; i < aircraft; i++) last[i] = new Position(0, 0);
  }

  @RunsIn(Scope.CALLER) int aircraft() { return last.length; }

  // How far an aircraft moved since the last release, as a position of the caller's memory. In the first release nothing
  // is known yet.
  @RunsIn(Scope.CALLER) Position moved(int aircraft, Position now) {
    if (!known) return new Position(0, 0);
    return new Position(now.x - last[aircraft].x, now.y - last[aircraft].y);
  }

  @RunsIn(Scope.CALLER) void keep(int aircraft, Position now) {
    last[aircraft].x = now.x;
    last[aircraft].y = now.y;
    known = true;
  }
}

// The map of cells, made once and filled anew in each release: the first aircraft of each cell, and the next one of
// each aircraft, -1 for none.
@Scope("Detection")
class VoxelMap {
  int[] first;
  int[] next;
  int side;
  int size;

  VoxelMap(int side, int size, int aircraft) {
    first = new int[side * side];
    next = new int[aircraft];
    this.side = side;
    this.size = size;
  }

  @RunsIn(Scope.CALLER) void clear() {
    for (int i = 0; i < first.length; i++) first[i] = -1;
  }

  // The cell of a position. What lies outside the map is in a cell of its border.
  @RunsIn(Scope.CALLER) int cell(Position at) {
    return row(at.y) * side + row(at.x);
  }

  @RunsIn(Scope.CALLER) int row(int value) {
    int row = value / size;
    if (row < 0) return 0;
    if (row >= side) return side - 1;
    return row;
  }

  @RunsIn(Scope.CALLER) void put(int cell, int aircraft) {
    next[aircraft] = first[cell];
    first[cell] = aircraft;
  }
}
