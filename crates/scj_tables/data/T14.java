abstract class Pump extends AperiodicEventHandler { }
abstract class Phase extends Mission { public long missionMemorySize() { return 10 * 100; } }
class Tank { Object o() { return new StorageParameters(1); } }
