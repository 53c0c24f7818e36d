// Empty classes by the names of the framework, with the types that JSR 302 gives them, so that a Java compiler reads the
// same sources.
interface Safelet<M extends Mission> {
    MissionSequencer<M> getSequencer();

    long immortalMemorySize();

    void initializeApplication();
}

abstract class Mission {
    protected abstract void initialize();

    public abstract long missionMemorySize();

    protected void cleanUp() {}

    public final void requestTermination() {}
}

abstract class MissionSequencer<M extends Mission> {
    MissionSequencer(PriorityParameters priority, StorageParameters storage) {}

    MissionSequencer(PriorityParameters priority, StorageParameters storage, String name) {}

    protected abstract M getNextMission();
}

abstract class PeriodicEventHandler {
    PeriodicEventHandler(
            PriorityParameters priority, PeriodicParameters release, StorageParameters storage) {}

    PeriodicEventHandler(
            PriorityParameters priority,
            PeriodicParameters release,
            StorageParameters storage,
            String name) {}

    public abstract void handleAsyncEvent();

    public void cleanUp() {}

    public final void register() {}
}

abstract class OneShotEventHandler {
    OneShotEventHandler(
            PriorityParameters priority,
            RelativeTime time,
            AperiodicParameters release,
            StorageParameters storage) {}

    public abstract void handleAsyncEvent();

    public void cleanUp() {}

    public final void register() {}
}

abstract class AperiodicEventHandler {
    AperiodicEventHandler(
            PriorityParameters priority, AperiodicParameters release, StorageParameters storage) {}

    AperiodicEventHandler(
            PriorityParameters priority,
            AperiodicParameters release,
            StorageParameters storage,
            String name) {}

    public abstract void handleAsyncEvent();

    public void cleanUp() {}

    public final void register() {}

    public final void release() {}
}

class ManagedMemory {
    static void enterPrivateMemory(long size, Runnable logic) {}

    static void executeInAreaOf(Object object, Runnable logic) {}

    static boolean allocInSame(Object first, Object second) {
        return false;
    }
}

class Services {
    static void setCeiling(Object object, int ceiling) {}
}

class Trace {
    static void print(String label, int value) {}
}

class Device {
    static int read(int port) {
        return 0;
    }
}

class PriorityParameters {
    PriorityParameters(int priority) {}
}

class PeriodicParameters {
    PeriodicParameters(RelativeTime start, RelativeTime period) {}
}

class AperiodicParameters {}

class StorageParameters {
    StorageParameters(long size) {}
}

class RelativeTime {
    RelativeTime(long milliseconds, int nanoseconds) {}
}
